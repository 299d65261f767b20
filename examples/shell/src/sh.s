/ sh -- a small shell
/
/ A line is commands with | or ^ between them, whose outputs are the inputs of the next ones; such a pipeline ends with the line, with ;
/ or with &, after which the shell doesn't wait for it. A command is words parted by blanks and tabs. <name among them makes a file
/ the standard input of the command, >name the standard output, and >>name goes on behind the end of the file. chdir and exit are done
/ by the shell itself. Other commands are programs: the file of the name as it is typed, or that of the name in /bin.
/
/ The shell ignores interrupts and quits. Its commands don't, but for those after which a & stands.
/
/ It is /etc/init of its disk too: process 1 begins without files, and opens the console.

intr	= 2
quit	= 3
append	= 1				/ the token >>
word	= 200				/ tokens from here on are words

	sys	getpid
	cmp	r0,$1
	bne	1f
	sys	open; tty; 2
	sys	dup
	clr	r0
	sys	dup
1:
	sys	getuid
	tstb	r0
	beq	1f
	movb	$'%,prompt
1:
	sys	signal; intr; 1
	mov	r0,onintr
	sys	signal; quit; 1
	mov	r0,onquit

loop:
	mov	$prompt,r0
	jsr	pc,say
	jsr	pc,getline
	jsr	pc,lex
	mov	$tokens,next
	jsr	pc,check
	bcc	pipeline
	mov	$syntax,r0
	jsr	pc,say
	br	loop

/ the next commands that hang together, if there are any
pipeline:
	tst	*next
	beq	loop
	jsr	pc,ahead
	clr	before
command:
	clr	reader
	clr	writer
	jsr	pc,split
	cmp	op,$'|
	beq	1f
	tst	before
	bne	2f
	mov	$chdir,r1
	jsr	pc,equal
	beq	change
	mov	$exit,r1
	jsr	pc,equal
	beq	leave
	br	2f
1:
	sys	pipe
	bes	3f
	mov	r0,reader
	mov	r1,writer
2:
	sys	fork
	br	child
	bes	3f
	mov	r0,r5
	mov	before,r0
	jsr	pc,shut
	cmp	op,$'|
	bne	1f
	mov	writer,r0
	jsr	pc,shut
	mov	reader,before
	br	command
1:
	cmp	last,$'&
	beq	1f
	jsr	pc,await
	br	pipeline
1:
	mov	r5,r0
	jsr	pc,number
	mov	$newline,r0
	jsr	pc,say
	br	pipeline
3:
	mov	$again,r0
	jsr	pc,say
	mov	before,r0
	jsr	pc,shut
	mov	reader,r0
	jsr	pc,shut
	mov	writer,r0
	jsr	pc,shut
	jbr	loop

change:
	mov	argv+2,0f
	beq	1f
	sys	chdir; 0:0
	bec	pipeline
	mov	$badir,r0
	br	2f
1:
	mov	$count,r0
2:
	jsr	pc,say
	jbr	pipeline

leave:
	clr	r0
	sys	exit

/ the child: its signals, its files, and then the program
child:
	cmp	last,$'&
	beq	1f
	mov	onintr,0f
	sys	signal; intr; 0:0
	mov	onquit,0f
	sys	signal; quit; 0:0
	br	2f
1:
	mov	$null,r4		/ nobody types for a command that isn't waited for
	jsr	pc,input
2:
	mov	before,r2
	beq	1f
	clr	r1
	jsr	pc,become
1:
	cmp	op,$'|
	bne	1f
	mov	writer,r2
	mov	$1,r1
	jsr	pc,become
	mov	reader,r0
	jsr	pc,shut
1:
	mov	infile,r4
	beq	1f
	jsr	pc,input
1:
	mov	outfile,r4
	beq	3f
	mov	r4,0f
	mov	r4,1f
	mov	$1,r0
	sys	close
	tst	appends
	beq	2f
	sys	open; 0:0; 1
	bes	2f
	sys	seek; 0; 2
	br	3f
2:
	sys	creat; 1:0; 666
	bec	3f
	mov	$nocreat,r3
	br	giveup
3:
	mov	argv,r4
	mov	r4,0f
	sys	exec; 0:0; argv
	mov	$bin,r0
	mov	$path,r1
1:
	movb	(r0)+,(r1)+
	bne	1b
	dec	r1
	mov	r4,r0
1:
	movb	(r0)+,(r1)+
	bne	1b
	sys	exec; path; argv
	mov	$nofile,r3
giveup:
	mov	r4,r0
	jsr	pc,say
	mov	r3,r0
	jsr	pc,say
	mov	$1,r0
	sys	exit

/ input -- the file of the name at r4 is the standard input
input:
	mov	r4,0f
	clr	r0
	sys	close
	sys	open; 0:0; 0
	bec	1f
	mov	$noopen,r3
	br	giveup
1:
	rts	pc

/ become -- the open file r2 has the number r1 in the place of its own
become:
	mov	r1,r0
	sys	close
	mov	r2,r0
	sys	dup
	mov	r2,r0

/ shut -- the open file r0 is closed, unless that is 0
shut:
	tst	r0
	beq	1f
	sys	close
1:
	rts	pc

/ await -- waits until the process r5 has ended, and tells which ended by a signal
await:
	sys	wait
	bes	3f
	mov	r1,r2
	bic	$!177,r2
	beq	2f
	cmp	r0,r5
	beq	1f
	mov	r0,-(sp)
	jsr	pc,number
	mov	$colon,r0
	jsr	pc,say
	mov	(sp)+,r0
1:
	jsr	pc,tell
2:
	cmp	r0,r5			/ children of children come here too
	bne	await
3:
	rts	pc

/ tell -- the signal r2, and whether the status r1 is that of a process which has left its image
tell:
	mov	r0,-(sp)
	mov	r1,-(sp)
	cmp	r2,$15.
	bhi	1f
	asl	r2
	mov	causes(r2),r0
	beq	1f
	jsr	pc,say
	bit	$200,(sp)
	beq	1f
	mov	$dumped,r0
	jsr	pc,say
1:
	mov	$newline,r0
	jsr	pc,say
	mov	(sp)+,r1
	mov	(sp)+,r0
	rts	pc

/ number -- r0 in decimal to the file 2
number:
	mov	r1,-(sp)
	mov	r2,-(sp)
	mov	$digits,r2
	mov	r0,r1
1:
	clr	r0
	div	$10.,r0
	add	$'0,r1
	movb	r1,-(r2)
	mov	r0,r1
	bne	1b
	mov	r2,r0
	jsr	pc,say
	mov	(sp)+,r2
	mov	(sp)+,r1
	rts	pc

/ say -- the text at r0 to the file 2
say:
	mov	r1,-(sp)
	mov	$2,r1
	jsr	pc,puts
	mov	(sp)+,r1
	rts	pc

/ getline -- a line of the standard input, with a NUL for its end
getline:
	mov	$line,r1
1:
	mov	r1,0f
	clr	r0
	sys	read; 0:0; 1
	jes	leave
	tst	r0
	jeq	leave
	cmpb	(r1),$'\n
	beq	2f
	cmp	r1,$end
	beq	1b			/ there is no room
	inc	r1
	br	1b
2:
	cmp	r1,$end
	bne	3f
	mov	$long,r0
	jsr	pc,say
	mov	$line,r1
3:
	clrb	(r1)
	rts	pc

/ lex -- the tokens of the line: the addresses of its words, and its signs; a 0 stands behind the last
lex:
	mov	$line,r1
	mov	$words,r2
	mov	$tokens,r3
1:
	movb	(r1)+,r0
	beq	4f
	jsr	pc,blank
	beq	1b
	jsr	pc,sign
	beq	3f
	mov	r2,(r3)+
2:
	movb	r0,(r2)+
	movb	(r1)+,r0
	jsr	pc,ends
	bne	2b
	clrb	(r2)+
	dec	r1
	br	1b
3:
	mov	r0,(r3)+
	cmp	r0,$'^
	bne	5f
	mov	$'|,-2(r3)
5:
	cmp	r0,$'>
	bne	1b
	cmpb	(r1),r0
	bne	1b
	inc	r1
	mov	$append,-2(r3)
	br	1b
4:
	clr	(r3)
	rts	pc

/ ends -- Z is set where the byte r0 ends a word; blank -- where it is a blank or a tab; sign -- where it means something by itself
ends:
	tst	r0
	beq	1f
	jsr	pc,sign
	beq	1f
blank:
	cmp	r0,$40
	beq	1f
	cmp	r0,$'\t
1:
	rts	pc
sign:
	mov	$signs,r4
1:
	tstb	(r4)
	beq	2f
	cmpb	r0,(r4)+
	bne	1b
	rts	pc
2:
	clz
	rts	pc

/ check -- C is set where a command or the name of a file is missing
check:
	mov	$tokens,r3
1:
	clr	r2			/ how many words the command has
2:
	mov	(r3)+,r0
	beq	5f
	cmp	r0,$word
	bhis	3f
	jsr	pc,file
	beq	4f
	tst	r2
	bne	1b
	br	6f
3:
	inc	r2
	br	2b
4:
	cmp	(r3)+,$word
	bhis	2b
	br	6f
5:
	tst	r2
	bne	7f
	cmp	r3,$tokens+2
	beq	7f
	cmp	-4(r3),$';
	beq	7f
	cmp	-4(r3),$'&
	beq	7f
6:
	sec
	rts	pc
7:
	clc
	rts	pc

/ file -- Z is set where the token r0 is one that the name of a file follows
file:
	cmp	r0,$'<
	beq	1f
	cmp	r0,$'>
	beq	1f
	cmp	r0,$append
1:
	rts	pc

/ ahead -- last is the sign with which the pipeline ends, or 0
ahead:
	mov	next,r1
1:
	mov	(r1)+,r0
	beq	2f
	cmp	r0,$';
	beq	2f
	cmp	r0,$'&
	bne	1b
2:
	mov	r0,last
	rts	pc

/ split -- the words of the next command to argv, with a 0 behind the last, and the sign after it to op; infile and outfile are 0
/ or the names of files
split:
	mov	next,r1
	mov	$argv,r2
	clr	infile
	clr	outfile
	clr	appends
1:
	mov	(r1)+,r0
	beq	4f
	cmp	r0,$word
	blo	2f
	mov	r0,(r2)+
	br	1b
2:
	jsr	pc,file
	bne	5f
	cmp	r0,$'<
	bne	3f
	mov	(r1)+,infile
	br	1b
3:
	mov	(r1)+,outfile
	clr	appends
	cmp	r0,$append
	bne	1b
	inc	appends
	br	1b
4:
	tst	-(r1)
5:
	mov	r0,op
	clr	(r2)
	mov	r1,next
	rts	pc

/ equal -- Z is set where the first word is the text at r1
equal:
	mov	argv,r0
1:
	cmpb	(r0),(r1)+
	bne	2f
	tstb	(r0)+
	bne	1b
2:
	rts	pc

tty:	</dev/tty8\0>
null:	</dev/null\0>
prompt:	<# \0>
chdir:	<chdir\0>
exit:	<exit\0>
badir:	<chdir: bad directory\n\0>
count:	<chdir: arg count\n\0>
again:	<try again\n\0>
noopen:	<: cannot open\n\0>
nocreat: <: cannot create\n\0>
nofile:	<: not found\n\0>
syntax:	<syntax error\n\0>
long:	<Command line overflow\n\0>
bin:	</bin/\0>
signs:	.byte	'<,'\>,'|,'^,';,'&,0
colon:	<: \0>
newline: <\n\0>
dumped:	< -- Core dumped\0>
hangup:	<Hangup\0>
quitted: <Quit\0>
illegal: <Illegal instruction\0>
trace:	<Trace/BPT trap\0>
iotrap:	<IOT trap\0>
emtrap:	<EMT trap\0>
float:	<Floating exception\0>
killed:	<Killed\0>
bus:	<Bus error\0>
memory:	<Memory fault\0>
badcall: <Bad system call\0>
sig14:	<Sig 14\0>
sig15:	<Sig 15\0>
	.even
causes:	0; hangup; 0; quitted; illegal; trace; iotrap; emtrap; float; killed; bus; memory; badcall; 0; sig14; sig15

	.bss
onintr:	.=.+2				/ what the shell's own parent did about interrupts
onquit:	.=.+2
next:	.=.+2				/ the token where the next command begins
last:	.=.+2
op:	.=.+2
before:	.=.+2				/ 0, or the end of a pipe from which the next command reads
reader:	.=.+2
writer:	.=.+2
infile:	.=.+2
outfile: .=.+2
appends: .=.+2
argv:	.=.+260.			/ 129 words: a line of 255 bytes has at most 128
tokens:	.=.+514.			/ 257: at most 256 and a 0
path:	.=.+262.			/ /bin/ and a word
	.=.+6
digits:	.=.+2				/ the digits of a number stand before a NUL
words:	.=.+512.
line:	.=.+256.
end	= line+255.
