@shop flow 0 38
{"op":"provision","endpoint":"orders"}
@shop flow 0 51
{"op":"publish","queue":"orders","payload":"first"}
@shop flow 0 52
{"op":"publish","queue":"orders","payload":"second"}
@billing flow 1000 33
{"op":"bind","endpoint":"orders"}
@billing flow 1000 22
{"op":"pull","flow":1}
