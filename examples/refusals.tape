@ann flow 0 6
{"op":
@ann flow 0 12
{"op":"fly"}
@ann flow 0 24
{"op":"settle","flow":1}
@ann flow 0 20
{"op":"tally","x":1}
@ann flow 0 33
{"op":"pull","flow":1,"count":65}
@ann flow 0 45
{"op":"publish","queue":"q1","mode":"direct"}
@ann flow 0 27
{"op":"publish","topic":""}
@ann flow 0 42
{"op":"bind","endpoint":"q1","topic":"!a"}
@ann flow 0 60
{"op":"provision","endpoint":"q1","attributes":{"maxTTL":1}}
@ann flow 0 29
{"op":"publish","queue":"q9"}
@ann flow 0 34
{"op":"provision","endpoint":"q1"}
@ann flow 0 34
{"op":"provision","endpoint":"q1"}
@ann flow 0 55
{"op":"subscribe","endpoint":"q1","subscription":"a/>"}
@ann flow 0 55
{"op":"subscribe","endpoint":"q1","subscription":"a/>"}
@ann flow 0 55
{"op":"unsubscribe","endpoint":"q1","subscription":"b"}
@ann flow 0 44
{"op":"publish","topic":"a/b","payload":"x"}
@ann flow 0 36
{"op":"deprovision","endpoint":"q1"}
@ann flow 0 29
{"op":"bind","endpoint":"q1"}
@bob flow 1000 22
{"op":"pull","flow":1}
@ann flow 2000 54
{"op":"settle","flow":1,"copy":1,"outcome":"accepted"}
@ann http 3000 14
GET / HTTP/1.1
