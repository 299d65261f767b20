/ Makes a file, and writes 512 bytes to it twenty times.
	sys	creat; name; 644
	mov	r0,r4
	mov	$20.,r5
1:
	mov	r4,r0
	sys	write; block; 512.
	dec	r5
	bne	1b
	clr	r0
	sys	exit
name:	</twenty\0>
	.even
block:	<a block of a file\n>
	.bss
	.=.+600.
