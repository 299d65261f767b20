/ A large image, and children of it until there is no place for one more.
	sys	break; 51200.		/ 800 clicks of data
again:	sys	fork
	br	.			/ a child
	br	again
