module nexus

go 1.19
