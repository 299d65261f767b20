/ Three children that never sleep, and a parent that waits for one of them.
	sys	fork
	br	.
	sys	fork
	br	.
	sys	fork
	br	.
	sys	wait
	br	.
