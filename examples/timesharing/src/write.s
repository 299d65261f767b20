/ write -- write user: the lines of the standard input go to the terminal of a user who is logged in, up to the end of the file

	cmp	(sp)+,$2
	beq	1f
	mov	$usage,r0
	jmp	fail
1:
	tst	(sp)+
	mov	(sp)+,user
	clr	r0
	jsr	pc,ttyn
	bcc	2f
	mov	$notty,r0
	jmp	fail
2:
	movb	r0,minex
	sys	open; utmp; 0
	bes	away
	mov	r0,file
	clrb	tty+8.
loop:
	mov	file,r0
	sys	read; record; 16.
	bes	away
	cmp	r0,$16.
	bne	away
	tstb	record
	beq	loop
	movb	record+8.,r5
	clrb	record+8.		/ the end of a name of eight bytes
	cmpb	r5,minex
	bne	4f
	mov	$record,r1		/ it is my own name
	mov	$mine,r2
3:
	movb	(r1)+,(r2)+
	bne	3b
4:
	mov	user,r1
	mov	$record,r2
5:
	cmpb	(r1),(r2)+
	bne	loop
	tstb	(r1)+
	bne	5b
	tstb	tty+8.
	bne	loop			/ he is on another line too
	movb	r5,tty+8.
	br	loop
away:
	tstb	tty+8.
	bne	there
	mov	user,r0
	mov	$1,r1
	jsr	pc,puts
	mov	$absent,r0
	jmp	fail

there:
	sys	open; tty; 1
	bec	1f
	mov	$denied,r0
	jmp	fail
1:
	mov	r0,file
	mov	$from,r0
	jsr	pc,tell
	mov	$mine,r0
	jsr	pc,tell
	mov	$on,r0
	jsr	pc,tell
2:
	clr	r0
	sys	read; buffer; 128.
	bes	3f
	mov	r0,0f
	beq	3f
	mov	file,r0
	sys	write; buffer; 0:0
	bec	2b
3:
	mov	$eot,r0
	jsr	pc,tell
	clr	r0
	sys	exit

/ tell -- the text at r0 to the other's terminal
tell:
	mov	file,r1
	jmp	puts

usage:	<usage: write user\n\0>
notty:	<write: no terminal\n\0>
absent:	< not logged in.\n\0>
denied:	<write: permission denied\n\0>
utmp:	</etc/utmp\0>
from:	<\nMessage from \0>
on:	< tty>
minex:	<x...\n\0>
eot:	<EOT\n\0>
	.even
	.bss
user:	.=.+2
file:	.=.+2
record:	.=.+16.
mine:	.=.+10.
buffer:	.=.+128.
