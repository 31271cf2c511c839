changes 11260
