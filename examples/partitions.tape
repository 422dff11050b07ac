@shop flow 0 72
{"op":"provision","endpoint":"orders","attributes":{"partitionCount":4}}
@shop flow 0 88
{"op":"publish","queue":"orders","payload":"a chair","properties":{"JMSXGroupID":"zoe"}}
@shop flow 0 87
{"op":"publish","queue":"orders","payload":"a lamp","properties":{"JMSXGroupID":"ada"}}
@shop flow 0 88
{"op":"publish","queue":"orders","payload":"a shelf","properties":{"JMSXGroupID":"mia"}}
@east flow 1000 33
{"op":"bind","endpoint":"orders"}
@east flow 1000 32
{"op":"pull","flow":1,"count":2}
@west flow 2000 33
{"op":"bind","endpoint":"orders"}
@shop flow 3000 91
{"op":"publish","queue":"orders","payload":"two chairs","properties":{"JMSXGroupID":"zoe"}}
@shop flow 3000 98
{"op":"publish","queue":"orders","payload":"no lamp after all","properties":{"JMSXGroupID":"ada"}}
@west flow 4000 33
{"op":"pull","flow":2,"count":10}
@east flow 5000 54
{"op":"settle","flow":1,"copy":1,"outcome":"accepted"}
@west flow 6000 33
{"op":"pull","flow":2,"count":10}
@east flow 7000 33
{"op":"pull","flow":1,"count":10}
@east flow 7000 34
{"op":"flows","endpoint":"orders"}
