/* expat's files ask for it; expat.c says all that it would. */
