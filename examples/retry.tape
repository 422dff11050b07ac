@shop flow 0 130
{"op":"provision","endpoint":"orders","attributes":{"deadMsgQueue":"orders.dead","maxRedeliveryCount":1,"respectTtlEnabled":true}}
@shop flow 0 43
{"op":"provision","endpoint":"orders.dead"}
@shop flow 0 65
{"op":"publish","queue":"orders","payload":"2 chairs","dmq":true}
@shop flow 0 70
{"op":"publish","queue":"orders","payload":"no such thing","dmq":true}
@shop flow 0 67
{"op":"publish","queue":"orders","payload":"today only","ttl":5000}
@clerk flow 1000 33
{"op":"bind","endpoint":"orders"}
@clerk flow 1000 32
{"op":"pull","flow":1,"count":2}
@clerk flow 1000 52
{"op":"settle","flow":1,"copy":1,"outcome":"failed"}
@clerk flow 1000 54
{"op":"settle","flow":1,"copy":2,"outcome":"rejected"}
@clerk flow 2000 22
{"op":"pull","flow":1}
@clerk flow 2000 52
{"op":"settle","flow":1,"copy":1,"outcome":"failed"}
@clerk flow 6000 22
{"op":"pull","flow":1}
@timer flow 6000 13
{"op":"tick"}
@desk flow 7000 38
{"op":"bind","endpoint":"orders.dead"}
@desk flow 7000 33
{"op":"pull","flow":2,"count":10}
@desk flow 7000 54
{"op":"settle","flow":2,"copy":5,"outcome":"accepted"}
@desk flow 7000 24
{"op":"unbind","flow":2}
@desk flow 7000 40
{"op":"delete","endpoint":"orders.dead"}
@desk flow 7000 34
{"op":"tally","endpoint":"orders"}
@desk flow 7000 22
{"op":"copy","copy":1}
