/ umount -- takes the disk of a special file off its directory, and empties /etc/mtab

	cmp	(sp)+,$2
	beq	1f
	mov	$count,r0
	jmp	fail
1:
	tst	(sp)+
	mov	(sp)+,0f
	sys	sync
	sys	umount; 0:0
	bec	1f
	mov	$name,r1
	jmp	perror
1:
	sys	creat; mtab; 644
	clr	r0
	sys	exit

count:	<arg count\n\0>
name:	<umount: \0>
mtab:	</etc/mtab\0>
	.even
