int uart_bytes;
