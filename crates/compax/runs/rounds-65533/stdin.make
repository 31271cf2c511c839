leads 65535
