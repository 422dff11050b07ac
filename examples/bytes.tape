@ann flow 0 37
{"op":"provision","endpoint":"notes"}
@ann flow 0 64
{"op":"subscribe","endpoint":"notes","subscription":"straße/*"}
@ann flow 0 60
{"op":"publish","topic":"straße/grün","payload":"Grüße"}
@ann flow 0 51
{"op":"publish","queue":"notes","payload64":"/wA="}
@ann flow 0 59
{"op":"publish","queue":"notes","payload":"one\ntwo\u0000"}
@ann flow 0 32
{"op":"bind","endpoint":"notes"}
@ann flow 0 32
{"op":"pull","flow":1,"count":3}
@ann flow 0 33
{"op":"tally","endpoint":"notes"}
