@billing flow 2000 54
{"op":"settle","flow":1,"copy":1,"outcome":"accepted"}
@billing flow 2000 33
{"op":"bind","endpoint":"orders"}
@billing flow 2000 32
{"op":"pull","flow":2,"count":2}
@billing flow 2000 54
{"op":"settle","flow":2,"copy":1,"outcome":"accepted"}
