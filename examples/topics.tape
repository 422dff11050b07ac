@shop flow 0 41
{"op":"provision","endpoint":"orders-eu"}
@shop flow 0 70
{"op":"subscribe","endpoint":"orders-eu","subscription":"orders/eu/>"}
@shop flow 0 76
{"op":"subscribe","endpoint":"orders-eu","subscription":"!orders/eu/test/*"}
@audit flow 1000 78
{"op":"provision","endpoint":"all-orders","attributes":{"maxMsgSpoolUsage":1}}
@audit flow 1000 68
{"op":"subscribe","endpoint":"all-orders","subscription":"orders/>"}
@watch flow 2000 66
{"op":"provision","endpoint":"new-orders","kind":"topic-endpoint"}
@watch flow 2000 60
{"op":"bind","endpoint":"new-orders","topic":"orders/*/new"}
@shop flow 3000 60
{"op":"publish","topic":"orders/eu/new","payload":"order 1"}
@shop flow 4000 61
{"op":"publish","topic":"orders/eu/test/1","payload":"a try"}
@shop flow 5000 62
{"op":"publish","topic":"invoices/1","payload":"nobody asked"}
@watch flow 6000 33
{"op":"pull","flow":1,"count":10}
@watch flow 7000 54
{"op":"settle","flow":1,"copy":2,"outcome":"accepted"}
@shop flow 8000 60
{"op":"publish","topic":"orders/us/new","payload":"order 2"}
@watch flow 9000 24
{"op":"unbind","flow":1}
@watch flow 9000 61
{"op":"bind","endpoint":"new-orders","topic":"orders/*/paid"}
@audit flow 10000 75
{"op":"change","endpoint":"all-orders","attributes":{"maxMsgSpoolUsage":2}}
@shop flow 11000 43
{"op":"deprovision","endpoint":"orders-eu"}
@audit flow 12000 14
{"op":"tally"}
