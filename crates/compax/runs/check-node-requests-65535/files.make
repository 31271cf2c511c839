node.input padded 65535
