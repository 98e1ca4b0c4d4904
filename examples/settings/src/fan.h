extern int fan_speed;
