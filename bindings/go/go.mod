module fonnalich

go 1.19
