@shop flow 0 39
{"op":"provision","endpoint":"parcels"}
@shop flow 0 66
{"op":"subscribe","endpoint":"parcels","subscription":"parcels/>"}
@shop flow 0 62
{"op":"provision","endpoint":"urgent","kind":"topic-endpoint"}
@desk flow 1000 73
{"op":"bind","endpoint":"urgent","topic":"parcels/>","selector":"urgent"}
@shop flow 2000 115
{"op":"publish","topic":"parcels/eu/1","payload":"a letter","properties":{"weight":{"fixed":"0.02"},"urgent":true}}
@shop flow 2000 117
{"op":"publish","topic":"parcels/eu/2","payload":"a chair","properties":{"weight":{"fixed":"7.50"},"note":"fragile"}}
@shop flow 2000 63
{"op":"publish","topic":"parcels/us/3","payload":"not weighed"}
@heavy flow 3000 58
{"op":"bind","endpoint":"parcels","selector":"weight > 5"}
@heavy flow 3000 33
{"op":"pull","flow":2,"count":10}
@heavy flow 3000 54
{"op":"settle","flow":2,"copy":3,"outcome":"accepted"}
@heavy flow 3000 33
{"op":"pull","flow":2,"count":10}
@light flow 4000 77
{"op":"bind","endpoint":"parcels","selector":"weight <= 5 OR weight IS NULL"}
@light flow 4000 33
{"op":"pull","flow":3,"count":10}
@desk flow 5000 22
{"op":"pull","flow":1}
@desk flow 5000 88
{"op":"bind","endpoint":"urgent","topic":"parcels/>","selector":"urgent AND weight < 1"}
@desk flow 5000 24
{"op":"unbind","flow":1}
@desk flow 5000 88
{"op":"bind","endpoint":"urgent","topic":"parcels/>","selector":"urgent AND weight < 1"}
@desk flow 5000 56
{"op":"bind","endpoint":"parcels","selector":"weight >"}
