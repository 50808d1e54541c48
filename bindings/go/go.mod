module kmipttlv

go 1.19
