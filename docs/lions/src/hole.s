/ Writes one byte at the end of block 40 of a new file; with an argument, it then reads a byte of block 3.
	mov	(sp),r5			/ how many arguments, with the name
	sys	creat; name; 644
	mov	r0,r4
	sys	seek; 20991.; 0		/ 41 blocks, less one byte
	mov	r4,r0
	sys	write; name; 1
	cmp	r5,$2
	blt	1f
	sys	open; name; 0
	mov	r0,r4
	sys	seek; 1536.; 0
	mov	r4,r0
	sys	read; name; 1
1:
	clr	r0
	sys	exit
name:	</hole\0>
	.even
