/ Mounts the second disk on /mnt, shows a file of it, makes one there, and takes the disk off again.
	sys	open; console; 1
	sys	mknod; rk1; 60600; 1		/ block device 0, 1 is the second disk
	sys	mount; rk1; mnt; 0

	sys	open; note; 0			/ a name that crosses
	sys	read; buf; 100.
	mov	r0,0f
	clr	r0
	sys	write; buf
0:	0

	sys	creat; new; 644			/ a node of the second disk
	mov	r0,r3
	sys	write; text; ended - text
	mov	r3,r0
	sys	close

	sys	link; note; other		/ no name leads from disk to disk
	mov	r0,r2				/ EXDEV, 18
	clr	r0
	cmp	r2,$18.
	bne	1f
	sys	write; cross; etext - cross
1:
	sys	umount; rk1			/ it is busy: the note is open
	cmp	r0,$16.
	bne	1f
	clr	r0
	sys	write; busy; ebusy - busy
1:
	mov	$1,r0
	sys	close
	sys	umount; rk1
	sys	open; note; 0			/ /mnt is empty again
	bcc	1f
	clr	r0
	sys	write; gone; egone - gone
1:
	sys	exit

console: </dev/tty8\0>
rk1:	</dev/rk1\0>
mnt:	</mnt\0>
note:	</mnt/note\0>
new:	</mnt/new\0>
other:	</other\0>
text:	<made by a process\n>
ended:
cross:	<no link crosses\n>
etext:
busy:	<busy\n>
ebusy:
gone:	<taken off\n>
egone:
	.even
buf:	.=.+100.
