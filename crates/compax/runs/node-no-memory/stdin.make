requests 65535
