ticks 65535
