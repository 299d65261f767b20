/ mount -- puts the disk of a special file on a directory, and notes it in /etc/mtab
/ Without arguments it tells what /etc/mtab has: what is mounted, and where.

	mov	(sp)+,r5
	tst	(sp)+
	cmp	r5,$1
	beq	table
	cmp	r5,$3
	beq	1f
	mov	$count,r0
	jmp	fail
1:
	mov	(sp)+,r4		/ the special file
	mov	(sp)+,r3		/ the directory
	mov	r4,0f
	mov	r3,1f
	sys	mount; 0:0; 1:0; 0
	bec	1f
	mov	$name,r1
	jmp	perror
1:
	mov	r3,r0
	mov	$entry,r1
	jsr	pc,copy
	mov	r4,r0
1:
	mov	r0,r4			/ behind a slash
2:
	tstb	(r0)
	beq	3f
	cmpb	(r0)+,$57
	beq	1b
	br	2b
3:
	mov	r4,r0
	mov	$entry+32.,r1
	jsr	pc,copy
	sys	creat; mtab; 644
	bes	3f
	sys	write; entry; 64.
3:
	clr	r0
	sys	exit

/ copy -- the text at r0 goes to r1, at most 31 bytes of it
copy:
	mov	$31.,r2
1:
	movb	(r0)+,(r1)+
	beq	2f
	sob	r2,1b
2:
	rts	pc

table:
	sys	open; mtab; 0
	bes	3b
	sys	read; entry; 64.
	bes	3b
	tstb	entry
	beq	3b
	mov	$entry+32.,r0
	mov	$1,r1
	jsr	pc,puts
	mov	$on,r0
	mov	$1,r1
	jsr	pc,puts
	mov	$entry,r0
	mov	$1,r1
	jsr	pc,puts
	mov	$end,r0
	mov	$1,r1
	jsr	pc,puts
	br	3b

count:	<arg count\n\0>
name:	<mount: \0>
mtab:	</etc/mtab\0>
on:	< on \0>
end:	<\n\0>
	.even

	.bss
entry:	.=.+64.				/ the directory, and the last part of the special file's name
