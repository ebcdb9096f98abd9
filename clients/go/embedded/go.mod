module siploc.example/clients/go/embedded

go 1.19

require siploc.example/clients/go/siploc v0.6.0

replace siploc.example/clients/go/siploc => ../siploc
