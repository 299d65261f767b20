/ The same, but the child is nice.
	sys	fork
	br	1f
	br	.
1:
	mov	$10.,r0
	sys	nice
	br	.
