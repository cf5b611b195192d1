module ordup.dev/ordup

go 1.19
