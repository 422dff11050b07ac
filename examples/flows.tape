@shop flow 0 38
{"op":"provision","endpoint":"orders"}
@shop flow 1000 51
{"op":"publish","queue":"orders","payload":"first"}
@shop flow 2000 52
{"op":"publish","queue":"orders","payload64":"/wA="}
@billing flow 3000 33
{"op":"bind","endpoint":"orders"}
@billing flow 4000 32
{"op":"pull","flow":1,"count":2}
@billing flow 5000 22
{"op":"pull","flow":1}
@billing flow 6000 54
{"op":"settle","flow":1,"copy":1,"outcome":"accepted"}
@billing flow 7000 24
{"op":"unbind","flow":1}
@billing flow 8000 22
{"op":"copy","copy":1}
@billing flow 9000 22
{"op":"copy","copy":2}
@billing flow 10000 34
{"op":"tally","endpoint":"orders"}
