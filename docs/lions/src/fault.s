/ A child puts numbers into its registers, pushes one, and reads a word at an odd address. Its parent waits.
	sys	fork
	br	1f			/ the child
	sys	wait
	br	.
1:
	mov	$101,r1
	mov	$102,r2
	mov	$103,r3
	mov	$104,r4
	mov	$105,r5
	mov	$106,-(sp)
	mov	(r1),r0			/ 101 is odd
