/ perror -- the text at r1 and what the error r0 means to the standard output, and the end
	.text
	.even
perror:
	mov	r0,r4
	mov	r1,r0
	mov	$1,r1
	jsr	pc,puts
	mov	$errors,r3
1:
	mov	(r3)+,r2		/ 0 where the table ends
	mov	(r3)+,r0
	tst	r2
	beq	2f
	cmp	r2,r4
	bne	1b
2:
	jmp	fail

errors:
	2; nofile; 6; nodev; 15.; notblk; 16.; busy; 20.; notdir; 22.; inval; 0; other
nofile:	<No such file or directory\n\0>
nodev:	<No such device or address\n\0>
notblk:	<Block device required\n\0>
busy:	<Mount device busy\n\0>
notdir:	<Not a directory\n\0>
inval:	<Invalid argument\n\0>
other:	<Error\n\0>
	.even
