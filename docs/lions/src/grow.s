/ An image grows and is cut by break, and grows by its stack, with a child's image in core after it.
	sys	fork
	br	child
	sys	break; 4096.		/ 64 clicks of data
	sys	break; 1024.		/ 16 clicks
	sys	wait			/ for the child, which gives its place back
	sys	break; 2048.		/ 32 clicks
	sub	$1400.,sp		/ below the 20 clicks of the stack
	clr	(sp)
	sys	break; 4096.
	sys	exit
child:	sys	exit
