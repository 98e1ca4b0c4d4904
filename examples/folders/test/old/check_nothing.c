This file is in a folder that the project removes: it is not read.
