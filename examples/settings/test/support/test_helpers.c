/* A support file: its folder is taken out of the test folders, so it is a source although its name is that of a test. */
int helpers;
