/* A removing pattern leaves this folder out: the file is not read. */
float relay;
