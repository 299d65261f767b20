/ init -- process 1: a getty for each line of /etc/ttys, and another whenever what came of it has ended
/
/ A line of the file is three characters: 1, or 0 where nobody is let in; X, for the line /dev/ttyX; and what getty gets as its
/ argument. With the switches 173030 there is a shell of user 0 on the console first, until it ends. Process 1 opens no line
/ itself: each child has the line that it opens as its terminal.

single	= 173030
entry	= 6				/ of the table: X, the argument, and the process, which is 0 where there is none
lost	= 377				/ the status of a child whose line or program isn't there

	sys	csw
	cmp	r0,$single
	bne	multi
	movb	$'8,ttyx
	sys	fork
	br	alone
	bes	multi
	mov	r0,r5
1:
	sys	wait
	bes	multi
	cmp	r0,r5
	bne	1b
multi:
	sys	creat; utmp; 644
	bes	1f
	sys	close
1:
	jsr	pc,lines

/ each line without a process gets one; then one ends
again:
	mov	$table,r5
1:
	tst	(r5)
	beq	3f
	tst	4(r5)
	bne	2f
	jsr	pc,spawn
2:
	add	$entry,r5
	br	1b
3:
	sys	wait
	bes	6f
	mov	$table,r5
4:
	tst	(r5)
	beq	3b			/ a child of somebody who has ended
	cmp	r0,4(r5)
	beq	5f
	add	$entry,r5
	br	4b
5:
	clr	4(r5)
	cmp	r1,$lost*400
	bne	7f
	mov	$-1,4(r5)		/ it isn't tried again
7:
	jsr	pc,out
	br	again
6:
	clr	r0			/ there is nobody to wait for
	sys	exit

/ spawn -- a child for the line of the entry r5
spawn:
	movb	(r5),ttyx
	movb	2(r5),kind
	sys	fork
	br	child
	bes	1f
	mov	r0,4(r5)
1:
	rts	pc

child:
	jsr	pc,begin
	sys	exec; getty; args
	br	gone
alone:
	jsr	pc,begin
	sys	exec; shell; minus
gone:
	mov	$lost,r0
	sys	exit

/ begin -- the line is of user 0 again, and is the files 0, 1 and 2
begin:
	sys	chown; tty; 0
	sys	chmod; tty; 622
	sys	open; tty; 2
	bes	gone
	sys	dup
	clr	r0
	sys	dup
	rts	pc

/ out -- nobody is logged in on the line of the entry r5
out:
	sys	open; utmp; 1
	bes	1f
	mov	r0,r4
	mov	(r5),r1
	sub	$'0,r1
	asl	r1
	asl	r1
	asl	r1
	asl	r1
	mov	r1,0f
	sys	seek; 0:0; 0
	mov	r4,r0
	sys	write; nobody; 16.
	mov	r4,r0
	sys	close
1:
	rts	pc

/ lines -- the table of the lines that are let in, with a 0 behind the last
lines:
	mov	$table,r5
	sys	open; ttys; 0
	bes	4f
	mov	r0,r4
	sys	read; buffer; 128.
	bes	3f
	mov	$buffer,r1
	mov	r1,r2
	add	r0,r2
1:
	mov	r1,r3			/ where a line of the file begins
2:
	cmp	r1,r2
	bhis	3f
	cmpb	(r1)+,$'\n
	bne	2b
	mov	r1,r0
	sub	r3,r0
	cmp	r0,$4
	bne	1b
	cmpb	(r3)+,$'1
	bne	1b
	cmpb	(r3),$'0
	blo	1b
	cmpb	(r3),$'9
	bhi	1b
	cmp	r5,$last
	beq	1b
	movb	(r3)+,(r5)
	movb	(r3)+,2(r5)
	add	$entry,r5
	br	1b
3:
	mov	r4,r0
	sys	close
4:
	rts	pc

utmp:	</etc/utmp\0>
ttys:	</etc/ttys\0>
getty:	</etc/getty\0>
shell:	</bin/sh\0>
tty:	</dev/tty>
ttyx:	<8\0>
kind:	<0\0>
dash:	<-\0>
	.even
args:	getty; kind; 0
minus:	dash; 0

	.bss
nobody:	.=.+16.
table:	.=.+48.				/ eight lines
last:	.=.+2
buffer:	.=.+128.
