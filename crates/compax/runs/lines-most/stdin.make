reads 65535
