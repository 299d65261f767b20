/ ed -- a small editor of text, line by line
/ The lines stand in text one after the other, each with its new line; end is after them, last is how many they are, and dot
/ is the current one. A command has two addresses, addr1 and addr2, or what it takes in their place.

	mov	sp,stack		/ what an error goes back to
	mov	(sp)+,r5
	tst	(sp)+
	mov	$text,end
	cmp	r5,$2
	blt	loop
	mov	(sp)+,r5
	jsr	pc,setname
	clr	addr2
	jsr	pc,readin
loop:
	mov	stack,sp
	jsr	pc,getline
	mov	$line,r5
	jsr	pc,addresses
	movb	(r5)+,r0
	mov	$commands,r1
1:
	cmp	r0,(r1)+
	beq	2f
	tst	(r1)+
	tst	(r1)
	bpl	1b
error:
	mov	$what,r0
	mov	$1,r1
	jsr	pc,puts
	br	loop
2:
	jsr	pc,*(r1)
	br	loop

/ addresses -- addr1 and addr2 of the command at r5, and how many there are
addresses:
	clr	given
	mov	dot,addr1
	mov	dot,addr2
	jsr	pc,address
	bcs	1f
	inc	given
	mov	r0,addr1
	mov	r0,addr2
	cmpb	(r5),$',
	bne	1f
	inc	r5
	jsr	pc,address
	jcs	error
	inc	given
	mov	r0,addr2
1:
	cmp	addr2,last
	jhi	error
	cmp	addr1,addr2
	jhi	error
	rts	pc

/ address -- the address at r5, in r0; C is set where there is none
address:
	clr	r4
	jsr	pc,digits
	bcc	4f
	movb	(r5),r1
	mov	dot,r0
	cmp	r1,$'.
	beq	3f
	mov	last,r0
	cmp	r1,$'$
	beq	3f
	mov	dot,r0
	cmp	r1,$'+
	beq	4f
	cmp	r1,$'-
	beq	4f
	cmp	r1,$57
	beq	search
	sec
	rts	pc
3:
	inc	r5
4:
offset:
	mov	r0,r4
	cmpb	(r5),$'+
	beq	5f
	cmpb	(r5),$'-
	bne	7f
	inc	r5
	jsr	pc,digits
	bcc	6f
	mov	$1,r0
6:
	neg	r0
	br	8f
5:
	inc	r5
	jsr	pc,digits
	bcc	8f
	mov	$1,r0
8:
	add	r4,r0
	jmi	error
	br	4b
7:
	clc
	rts	pc

/ search -- the next line with the text at r5, from the one after the current line on, and round
search:
	inc	r5
	mov	$57,r0
	mov	$old,r1
	jsr	pc,piece
	tst	last
	jeq	error
	mov	dot,r4
	bne	1f
	mov	last,r4
1:
	mov	r4,-(sp)
2:
	inc	r4
	cmp	r4,last
	blos	1f
	mov	$1,r4
1:
	mov	r4,r0
	jsr	pc,find
	jsr	pc,match
	bcc	3f
	cmp	r4,(sp)
	bne	2b
	jbr	error
3:
	tst	(sp)+
	mov	r4,r0
	jbr	offset

/ digits -- the number at r5, in r0; C is set where there is none
digits:
	clr	r0
	sec
	ror	r3			/ r3 is below 0 as long as there is none
1:
	movb	(r5),r1
	sub	$'0,r1
	blt	2f
	cmp	r1,$9.
	bgt	2f
	inc	r5
	mov	r0,r2
	asl	r0
	asl	r0
	add	r2,r0
	asl	r0
	add	r1,r0
	clr	r3
	br	1b
2:
	asl	r3
	rts	pc

/ piece -- the text at r5 up to the byte r0, or the end, to r1
piece:
	movb	(r5),(r1)
	beq	2f
	inc	r5
	cmpb	(r1),r0
	beq	1f
	inc	r1
	br	piece
1:
	clrb	(r1)
2:
	rts	pc

/ match -- where the text old stands in the line at r1, in r2; C is set where it doesn't
match:
	mov	r1,r2
1:
	mov	r2,r3
	mov	$old,r0
2:
	tstb	(r0)
	beq	3f
	cmpb	(r0)+,(r3)+
	beq	2b
	cmpb	(r2)+,$'\n
	bne	1b
	sec
	rts	pc
3:
	clc
	rts	pc

/ find -- where line r0 begins, in r1; the line after the last begins at end
find:
	mov	$text,r1
1:
	dec	r0
	ble	2f
3:
	cmpb	(r1)+,$'\n
	bne	3b
	br	1b
2:
	rts	pc

/ the commands

print:
	tst	addr1
	jeq	error1
	mov	addr1,r0
	jsr	pc,find
	mov	r1,r4
	mov	addr2,r0
	mov	r0,dot
	inc	r0
	jsr	pc,find
	mov	r4,0f
	sub	r4,r1
	mov	r1,1f
	mov	$1,r0
	sys	write; 0:0; 1:0
	rts	pc
error1:
	jmp	error

next:
	tst	given
	bne	1f
	inc	addr2
	cmp	addr2,last
	jhi	error1
1:
	mov	addr2,addr1
	br	print

tell:
	tst	given
	bne	1f
	mov	last,addr2
1:
	mov	addr2,r1
	jmp	number

delete:
	tst	addr1
	jeq	error1
	mov	addr1,r0
	jsr	pc,find
	mov	r1,r4
	mov	addr2,r0
	inc	r0
	jsr	pc,find
1:
	cmp	r1,end
	bhis	2f
	movb	(r1)+,(r4)+
	br	1b
2:
	mov	r4,end
	sub	addr2,last
	add	addr1,last
	dec	last
	mov	addr1,dot
	cmp	dot,last
	blos	3f
	mov	last,dot
3:
	rts	pc

change:
	jsr	pc,delete
	mov	addr1,addr2
insert:
	dec	addr2
	bge	append
	clr	addr2
append:
	jsr	pc,getline
	cmpb	line,$'.
	bne	1f
	tstb	line+1
	beq	2f
1:
	mov	$line,r0
	jsr	pc,enter
	br	append
2:
	mov	addr2,dot
	rts	pc

/ enter -- the line r0, with its NUL, after line addr2, which it is then
enter:
	mov	r0,r4
	mov	r0,r3
1:
	tstb	(r3)+
	bne	1b
	movb	$'\n,-1(r3)
	sub	r0,r3			/ so many bytes
	mov	addr2,r0
	inc	r0
	jsr	pc,find
	mov	end,r0
	mov	r0,r2
	add	r3,r2
	cmp	r2,$most
	jhi	error1
	mov	r2,end
2:
	cmp	r0,r1
	blos	3f
	movb	-(r0),-(r2)
	br	2b
3:
	movb	(r4)+,(r1)+
	sob	r3,3b
	inc	last
	inc	addr2
	rts	pc

/ subst -- s/old/new/: the first old of each line becomes new; with p after it the last of them is printed
subst:
	movb	(r5)+,r0
	jeq	error1
	mov	$old,r1
	jsr	pc,piece
	mov	$new,r1
	jsr	pc,piece
	clr	done
	mov	addr2,-(sp)
	mov	addr1,r4
	jeq	error1
1:
	mov	r4,r0
	jsr	pc,find
	jsr	pc,match
	bcs	4f
	mov	r4,done
	mov	r4,-(sp)
	mov	r3,r4			/ r2 and r3 are the ends of the text
	mov	$made,r0
2:
	cmp	r1,r2
	bhis	3f
	movb	(r1)+,(r0)+
	br	2b
3:
	mov	$new,r1
5:
	movb	(r1)+,(r0)+
	bne	5b
	dec	r0
6:
	cmp	r0,$made+510.
	bhis	7f
	movb	(r4)+,(r0)+
	cmpb	-1(r0),$'\n
	bne	6b
	clrb	-(r0)
	mov	(sp),addr1
	mov	(sp),addr2
	jsr	pc,delete
	dec	addr2
	mov	$made,r0
	jsr	pc,enter
	mov	(sp)+,r4
4:
	inc	r4
	cmp	r4,(sp)
	blos	1b
	tst	(sp)+
	mov	done,r0
	beq	7f
	mov	r0,dot
	cmpb	(r5),$'p
	bne	8f
	mov	r0,addr1
	mov	r0,addr2
	jmp	print
8:
	rts	pc
7:
	jmp	error

/ the file

setname:
	cmpb	(r5),$40
	bne	1f
	inc	r5
	br	setname
1:
	tstb	(r5)
	beq	3f
	mov	$name,r1
2:
	movb	(r5)+,(r1)+
	bne	2b
3:
	rts	pc

file:
	jsr	pc,setname
	mov	$name,r0
	mov	$1,r1
	jsr	pc,puts
	mov	$newline,r0
	mov	$1,r1
	jmp	puts

edit:
	jsr	pc,setname
	mov	$text,end
	clr	last
	clr	dot
	clr	addr2
	br	readin
read:
	jsr	pc,setname
	tst	given
	bne	readin
	mov	last,addr2

/ readin -- the lines of the file come after line addr2
readin:
	clr	count
	sys	open; name; 0
	bec	1f
7:
	jmp	error
1:
	mov	r0,handle
2:
	mov	$line,r5
3:
	mov	handle,r0
	mov	r5,0f
	sys	read; 0:0; 1
	bes	4f
	tst	r0
	beq	4f
	inc	count
	cmpb	(r5),$'\n
	beq	5f
	inc	r5
	cmp	r5,$line+510.
	blo	3b
5:
	clrb	(r5)
	mov	$line,r0
	jsr	pc,enter
	br	2b
4:
	cmp	r5,$line
	bne	5b
	mov	handle,r0
	sys	close
	mov	addr2,dot
	mov	count,r1
	jmp	number

write:
	jsr	pc,setname
	tst	given
	bne	1f
	mov	$1,addr1
	mov	last,addr2
1:
	sys	creat; name; 666
	bes	7b
	mov	r0,handle
	mov	addr1,r0
	jsr	pc,find
	mov	r1,r4
	mov	addr2,r0
	inc	r0
	jsr	pc,find
	mov	r4,0f
	sub	r4,r1
	mov	r1,1f
	mov	r1,count
	mov	handle,r0
	sys	write; 0:0; 1:0
	bes	7b
	mov	handle,r0
	sys	close
	mov	count,r1

/ number -- the number r1 on a line
number:
	mov	$figures,r2
1:
	clr	r0
	div	$10.,r0
	add	$'0,r1
	movb	r1,-(r2)
	mov	r0,r1
	bne	1b
	mov	r2,r0
	mov	$1,r1
	jmp	puts

/ getline -- a line of the standard input to line, with a NUL for its end
getline:
	mov	$line,r2
1:
	mov	r2,0f
	clr	r0
	sys	read; 0:0; 1
	bes	quit
	tst	r0
	beq	quit
	cmpb	(r2),$'\n
	beq	2f
	cmp	r2,$line+510.
	bhis	1b
	inc	r2
	br	1b
2:
	clrb	(r2)
	rts	pc

quit:
	clr	r0
	sys	exit

commands:
	0; next; 'p; print; 'd; delete; 'a; append; 'i; insert; 'c; change; 's; subst
	'=; tell; 'w; write; 'r; read; 'e; edit; 'f; file; 'q; quit; -1
what:	<?\n\0>
newline: <\n\0>
	.even
	.data
	<     >
figures: <\n\0>
	.even
	.bss
stack:	.=.+2
given:	.=.+2
addr1:	.=.+2
addr2:	.=.+2
dot:	.=.+2
last:	.=.+2
done:	.=.+2
count:	.=.+2
handle:	.=.+2
end:	.=.+2
name:	.=.+256.
old:	.=.+512.
new:	.=.+512.
line:	.=.+512.
made:	.=.+1600.
text:	.=.+20000.
most	= .
