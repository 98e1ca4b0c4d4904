int fan_speed;
