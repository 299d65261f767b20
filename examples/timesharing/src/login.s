/ login -- login [name]: asks for the password of a user, and becomes the shell that /etc/passwd has for him, in his directory

	mov	(sp)+,r5
	tst	(sp)+
	dec	r5
	beq	ask
	mov	(sp)+,r1
	mov	$name,r2
1:
	movb	(r1)+,(r2)+
	beq	known
	cmp	r2,$name+15.
	bne	1b
	clrb	(r2)
	br	known
ask:
	mov	$who,r0
	jsr	pc,say
	mov	$name,r1
	jsr	pc,getline
	tstb	name
	beq	ask
known:
	jsr	pc,find
	bcs	wrong
	tstb	*field+2
	beq	right			/ he has no password
	clr	r0
	sys	gtty; modes
	bic	$10,modes+4		/ it isn't shown
	clr	r0
	sys	stty; modes
	mov	$secret,r0
	jsr	pc,say
	mov	$typed,r1
	jsr	pc,getline
	bis	$10,modes+4
	clr	r0
	sys	stty; modes
	mov	$newline,r0
	jsr	pc,say
	mov	field+2,r1
	mov	$typed,r2
	jsr	pc,equal
	beq	right
wrong:
	mov	$bad,r0
	jsr	pc,say
	br	ask

right:
	mov	field+10.,0f
	sys	chdir; 0:0
	bec	1f
	mov	$nodir,r0
	jsr	pc,say
	br	ask
1:
	mov	field+4,r4
	jsr	pc,number
	mov	r3,user
	mov	field+6,r4
	jsr	pc,number
	mov	r3,group
	clr	r0
	jsr	pc,ttyn
	bcs	2f
	jsr	pc,enter
	movb	group,0f+1
	movb	user,0f
	sys	chown; tty; 0:0
2:
	mov	group,r0
	sys	setgid
	mov	user,r0
	sys	setuid
	jsr	pc,today
	mov	field+12.,r0
	tstb	(r0)
	bne	3f
	mov	$shell,r0
3:
	mov	r0,0f
	sys	exec; 0:0; minus
	mov	$noshell,r0
	jmp	fail

/ enter -- /etc/utmp tells who is logged in on the line r0, and since when
enter:
	mov	r0,r5
	sys	open; utmp; 1
	bes	3f
	mov	r0,r4
	mov	$name,r1
	mov	$record,r2
1:
	movb	(r1)+,(r2)+
	beq	2f
	cmp	r2,$record+8.
	bne	1b
2:
	movb	r5,record+8.
	sys	time
	mov	r0,record+10.
	mov	r1,record+12.
	sub	$'0,r5
	asl	r5
	asl	r5
	asl	r5
	asl	r5
	mov	r5,0f
	mov	r4,r0
	sys	seek; 0:0; 0
	mov	r4,r0
	sys	write; record; 16.
	mov	r4,r0
	sys	close
3:
	rts	pc

/ today -- what /etc/motd says
today:
	sys	open; motd; 0
	bes	2f
	mov	r0,r4
1:
	mov	r4,r0
	sys	read; buffer; 512.
	bes	2f
	mov	r0,0f
	beq	3f
	mov	$1,r0
	sys	write; buffer; 0:0
	br	1b
3:
	mov	r4,r0
	sys	close
2:
	rts	pc

/ find -- the fields of the line of /etc/passwd that begins with the name; C is set where there is none
find:
	sys	open; passwd; 0
	bes	4f
	mov	r0,file
	clr	left
1:
	jsr	pc,next
	bcs	3f
	mov	field,r1
	mov	$name,r2
	jsr	pc,equal
	bne	1b
	mov	file,r0
	sys	close
	clc
	rts	pc
3:
	mov	file,r0
	sys	close
	sec
4:
	rts	pc

/ next -- the next line of the file to line, with a NUL in the place of each colon, and where its seven fields begin
next:
	mov	$line,r1
	mov	$field,r2
	mov	r1,(r2)+
1:
	jsr	pc,getc
	bcs	4f
	movb	r0,(r1)
	cmp	r0,$'\n
	beq	3f
	cmp	r0,$':
	bne	2f
	clrb	(r1)
	cmp	r2,$field+14.
	beq	2f
	mov	r1,(r2)
	inc	(r2)+
2:
	cmp	r1,$line+127.
	beq	1b
	inc	r1
	br	1b
3:
	clrb	(r1)
5:
	cmp	r2,$field+14.		/ fields that aren't there are empty
	beq	6f
	mov	r1,(r2)+
	br	5b
6:
	clc
4:
	rts	pc

/ getc -- the next byte of the file to r0; C is set at its end
getc:
	tst	left
	bne	1f
	mov	file,r0
	sys	read; buffer; 512.
	bes	3f
	mov	$buffer,place
	mov	r0,left
	beq	2f
1:
	movb	*place,r0
	inc	place
	dec	left
	clc
	rts	pc
2:
	sec
3:
	rts	pc

/ equal -- Z is set where the texts at r1 and r2 are the same
equal:
	cmpb	(r1),(r2)+
	bne	1f
	tstb	(r1)+
	bne	equal
1:
	rts	pc

/ number -- the digits at r4 to r3
number:
	clr	r3
1:
	movb	(r4)+,r0
	sub	$'0,r0
	blo	2f
	cmp	r0,$9.
	bhi	2f
	mul	$10.,r3
	add	r0,r3
	br	1b
2:
	rts	pc

/ getline -- a line of the standard input to the sixteen bytes at r1, with a NUL for its end
getline:
	mov	r1,r2
	add	$15.,r2
1:
	clr	r0
	sys	read; char; 1
	bes	3f
	tst	r0
	beq	3f
	cmpb	char,$'\n
	beq	2f
	cmp	r1,r2
	beq	1b
	movb	char,(r1)+
	br	1b
2:
	clrb	(r1)
	rts	pc
3:
	clr	r0
	sys	exit

/ say -- the text at r0 to the line
say:
	mov	$1,r1
	jmp	puts

who:	<Name: \0>
secret:	<Password: \0>
bad:	<Login incorrect.\n\0>
nodir:	<No directory\n\0>
noshell: <No Shell\n\0>
newline: <\n\0>
passwd:	</etc/passwd\0>
motd:	</etc/motd\0>
utmp:	</etc/utmp\0>
shell:	</bin/sh\0>
dash:	<-\0>
	.even
minus:	dash; 0
	.bss
name:	.=.+16.
typed:	.=.+16.
modes:	.=.+6
user:	.=.+2
group:	.=.+2
file:	.=.+2
char:	.=.+2
record:	.=.+16.
field:	.=.+14.
line:	.=.+128.
left:	.=.+2				/ bytes of the buffer that are still to be read, and where they begin
place:	.=.+2
buffer:	.=.+512.
