/ Executes a program three times, one after the other.
	mov	$3,r5
again:	sys	fork
	br	1f			/ the child
	sys	wait
	sob	r5,again
	br	.
1:
	sys	exec; name; list
	sys	exit
name:	</line\0>
	.even
list:	name; 0
