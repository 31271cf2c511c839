padded 65535
