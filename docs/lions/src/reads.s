/ Two processes read a file each, 512 bytes at a time, and end.
	sys	open; tty; 2
	sys	fork
	br	1f			/ the child goes on here
1:
	sys	open; name; 0
	mov	r0,r4
2:
	mov	r4,r0
	sys	read; buf; 512.
	tst	r0
	bne	2b
	sys	exit
tty:	</dev/tty8\0>
name:	</file\0>
	.even
	.bss
buf:	.=.+512.
