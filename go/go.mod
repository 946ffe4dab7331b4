module cupolachive.example/syslogbox

go 1.19
