/ Two processes that do nothing but branch, for ever.
	sys	fork
	br	.
	br	.
