module siploc.example/clients/go/siploc

go 1.19
