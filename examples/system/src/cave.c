/* cave: a game of a lighthouse and of what is under it. */
#include <ctype.h>
#include <stdio.h>
#include <string.h>
#include <unix.h>
#include "cave.h"
#include "words.h"

#define MOST_CARRIED 7
#define DAWN 450
#define TIDE 25			/* turns of a low tide, and of a high one */
#define SAVED "cave.save"

static struct {			/* all that a saved game keeps */
	int here, turns, oil, wax, measures, falls, end;
	unsigned char at[THINGS], seen[PLACES];
	char lantern_lit, candle_lit, barrel_moved, cabin_open, crab_fed, pumped, grate_open;
	char ferry_called, ferry_paid, salt_open, fitted, poured, bell_hung;
} now;

static char line[82], made[82], *verb_word, *noun_word;
static int verb, noun;

static const char *const ways[WAYS] = { "north", "east", "south", "west", "up", "down" };

static int low_tide(void)
{
	return now.turns / TIDE % 2 == 0;
}

static int is_here(int thing)
{
	return now.at[thing] == now.here || now.at[thing] == CARRIED;
}

static int has(int thing)
{
	return now.at[thing] == CARRIED;
}

static int light_here(void)
{
	return (rooms[now.here].kind & OPEN_AIR) || (now.lantern_lit && is_here(LANTERN))
		|| (now.candle_lit && is_here(CANDLE));
}

static int in_warren(int place)
{
	return place >= WARREN1 && place <= WARREN8;
}

static int carried(void)
{
	int thing, count = 0;

	for (thing = 0; thing < THINGS; thing++)
		count += has(thing);
	return count;
}

static int score(void)
{
	int thing, points = 0;

	for (thing = PEARL; thing <= CHAIN; thing++)
		if (now.at[thing] == KITCHEN)
			points += 10;
	return points + (now.fitted ? 10 : 0) + (now.poured ? 5 : 0) + (now.end == 1 ? 25 : 0);
}

/* The first step of the shortest way through the warren to a place. */
static int lean(int target)
{
	static unsigned char far[PLACES];
	int place, way, round, next, best = NORTH;

	memset(far, 100, sizeof far);
	far[target] = 0;
	for (round = 0; round < 10; round++)
		for (place = WARREN1; place <= WARREN8; place++)
			for (way = 0; way < WAYS; way++) {
				next = rooms[place].to[way];
				if (next && far[next] + 1 < far[place])
					far[place] = far[next] + 1;
			}
	for (way = 0; way < WAYS; way++) {
		next = rooms[now.here].to[way];
		if (next && far[next] < far[rooms[now.here].to[best]])
			best = way;
	}
	return best;
}

static void show_tide(void)
{
	int left = TIDE - now.turns % TIDE;

	printf("The water is %s, and will be for %d "
	    "turn%s.\n", low_tide() ? "low" : "high", left, left == 1 ? "" : "s");
}

/* What has changed in a place. */
static void show_state(void)
{
	switch (now.here) {
	case CELLAR:
		say(now.barrel_moved ? "Where the barrel stood steps lead down." : "A barrel stands against the "
		    "far wall, and the air comes from there.");
		break;
	case LAMPROOM:
		if (now.fitted)
			say("The lens is in its ring.");
		if (now.poured)
			say("The great lamp is full of oil.");
		break;
	case GAUGE: show_tide(); break;
	case BEACH:
		say(low_tide() ? "The sea has gone out, and the hole is dry." : "The sea stands in the hole.");
		break;
	case DEN:
		say(now.crab_fed ? "A crab as large as a table sits in a corner, busy with its fish."
			: "A crab as large as a table sits in the northern passage, and opens and shuts its claws.");
		break;
	case TRAM1: say(now.cabin_open ? "The door is open." : "The door is shut."); break;
	case ENGINE: say(now.pumped ? "The shaft is dry." : "Black water stands in the shaft, up to the third "
	    "rung."); break;
	case SHAFTHEAD: say(now.grate_open ? "The grate is open." : "The grate is shut; rust has welded it, but "
	    "not well."); break;
	case CLIFF: if (now.grate_open) say("It is the grate of a mine, and it is open."); break;
	case QUAY:
		if (now.bell_hung)
			say("A bell hangs on the hook.");
		if (now.ferry_called)
			say(now.ferry_paid ? "The boat lies at the quay. The ferryman nods." :
				"A boat lies at the quay. The ferryman has no eyes, but an open hand.");
		break;
	case SALTDOOR: if (now.salt_open) say("The slab has sunk into the floor."); break;
	}
	if (in_warren(now.here) && now.candle_lit && is_here(CANDLE))
		printf("The flame of the candle leans %s.\n", ways[lean(low_tide() ? GROTTO : POOLSIDE)]);
}

static void show_things(void)
{
	int thing;

	for (thing = 0; thing < THINGS; thing++) {
		if (now.at[thing] != now.here || (thing == LENS && now.here == WELL))
			continue;
		if (thing == LANTERN && now.lantern_lit)
			say("There is a lantern here, burning.");
		else if (thing == CANDLE && now.candle_lit)
			say("There is a candle here, burning.");
		else {
			sprintf(made, "There is %s here.", things[thing].name);
			say(made);
		}
	}
}

static void look(int whole)
{
	const struct room *room = &rooms[now.here];

	if (!light_here()) {
		say("It is pitch dark. If you walk on you may fall.");
		return;
	}
	printf("\n%s\n", room->name);
	if (whole || !now.seen[now.here])
		say(room->text);
	now.seen[now.here] = 1;
	show_state();
	show_things();
}

static void finish(const char *text)
{
	say(text);
	if (now.end == 0)
		now.end = 2;
}

/* How many rings the stones in the pan have together. */
static int weight(void)
{
	return (now.at[RED] == SCALE) + 2 * (now.at[BLACK] == SCALE) + 3 * (now.at[WHITE] == SCALE)
		+ 5 * (now.at[GREY] == SCALE);
}

/* Whether the way is open; if it isn't, why is told. */
static int may_go(int to)
{
	int from = now.here;
	const char *why = NULL;

	if (from == CELLAR && to == STAIR1 && !now.barrel_moved)
		why = "You see no way down.";
	else if ((to == SEACAVE || to == SEAPASS || to == WETGAL) && !low_tide())
		why = "The sea fills it to the roof.";
	else if ((from == FISHGAL || from == ECHO) && to == CRAWL && carried() > 3)
		why = "You are stuck at once. You carry too much for the crawl; three things would do.";
	else if (from == DEN && to == POOLSIDE && !now.crab_fed)
		why = "The crab clicks. You step back, in one piece.";
	else if (from == TRAM1 && to == CABIN && !now.cabin_open)
		why = "The door is locked.";
	else if (from == ENGINE && to == DRIFT && !now.pumped)
		why = "You would have to breathe water.";
	else if (((from == SHAFTHEAD && to == CLIFF) || (from == CLIFF && to == SHAFTHEAD)) && !now.grate_open)
		why = "The grate of the old mine is shut.";
	else if ((from == QUAY && to == FARQUAY) && !now.ferry_paid)
		why = now.ferry_called ? "The ferryman keeps his hand where it is." : "There is only the lake.";
	else if (from == SALTDOOR && to == CHAPEL && !now.salt_open)
		why = "The slab of salt doesn't move.";
	else if (from == SCALE && to == TREASURY && weight() != 7)
		why = "The gate is held by a rod that comes from the scale.";
	if (why)
		say(why);
	return why == NULL;
}

static void go(int way)
{
	int to = rooms[now.here].to[way];

	if (!light_here() && !(to && (rooms[to].kind & OPEN_AIR))) {
		if (now.falls++ > 0) {
			finish("You walk on in the dark, and into nothing. It takes long enough to think of the ship.");
			return;
		}
		say("You feel with your foot, and there is no floor. Better not.");
		return;
	}
	if (to == 0) {
		say("There is no way there.");
		return;
	}
	if (!may_go(to))
		return;
	if ((now.here == QUAY && to == FARQUAY) || (now.here == FARQUAY && to == QUAY))
		say("You sit still. The oars make no sound, and neither does the ferryman.");
	now.here = to;
	look(0);
}

static void take_all(void)
{
	int thing, some = 0;

	for (thing = 0; thing < THINGS; thing++)
		if (now.at[thing] == now.here && thing != LENS) {
			if (carried() == MOST_CARRIED) {
				say("You can't carry more.");
				return;
			}
			now.at[thing] = CARRIED;
			printf("%s: taken.\n", things[thing].word);
			some = 1;
		}
	if (!some)
		say("There is nothing to take.");
}

static void take(void)
{
	if (!light_here())
		say("In the dark?");
	else if (noun_word && strcmp(noun_word, "all") == 0)
		take_all();
	else if (noun < 0)
		say("There is no such thing to take.");
	else if (has(noun))
		say("You have it.");
	else if (now.at[noun] != now.here)
		say("It isn't here.");
	else if (carried() == MOST_CARRIED)
		say("You can't carry more.");
	else if (noun == LENS && now.here == WELL && !has(NET))
		say("You reach down to the shoulder, and further than that it goes. It looks at you.");
	else {
		if (noun == LENS && now.here == WELL)
			say("You lower the net, and lift the eye out of the well. The water doesn't move.");
		else
			say("Taken.");
		now.at[noun] = CARRIED;
		if (noun == BELL)
			now.bell_hung = 0;
	}
}

static void drop(void)
{
	int thing, some = 0;

	if (noun_word && strcmp(noun_word, "all") == 0) {
		for (thing = 0; thing < THINGS; thing++)
			if (has(thing)) {
				now.at[thing] = now.here;
				some = 1;
			}
		say(some ? "Dropped." : "You carry nothing.");
	} else if (noun < 0 || !has(noun))
		say("You don't have that.");
	else {
		now.at[noun] = now.here;
		say(now.here == KITCHEN && noun >= PEARL ? "You lay it on the table. The keeper would have "
		    "liked that." : "Dropped.");
	}
}

static void list(void)
{
	int thing, some = 0;

	for (thing = 0; thing < THINGS; thing++)
		if (has(thing)) {
			printf("%s  %s%s\n", some ? "" : "You carry:\n", things[thing].name,
				(thing == LANTERN && now.lantern_lit) || (thing == CANDLE && now.candle_lit) ? ", burning"
				: thing == CAN && now.measures ? ", with oil" : "");
			some = 1;
		}
	if (!some)
		say("You carry nothing.");
}

static void win(void)
{
	now.end = 1;
	say("The spark falls, the flame stands up, and the eye takes it and throws it out over the sea. The "
	    "wheel begins to turn. You count: one, two, "
	    "three, dark. Far out a ship's light stops, hangs, and slowly begins to move to the left, away from "
	    "the rocks. When the sun comes up "
	    "she lies in the harbour.");
}

static void light(void)
{
	int dark = !light_here();

	if (!has(FLINT)) {
		say("You have nothing that gives a spark.");
		return;
	}
	if (noun == LANTERN && is_here(LANTERN)) {
		if (now.oil == 0)
			say("It is empty.");
		else {
			now.lantern_lit = 1;
			say("The lantern burns.");
		}
	} else if (noun == CANDLE && is_here(CANDLE)) {
		if (now.wax == 0)
			say("There is nothing left of it but a stump.");
		else {
			now.candle_lit = 1;
			say("The candle burns.");
			if (!dark)
				show_state();
		}
	} else if (now.here == LAMPROOM && noun_word && strcmp(noun_word, "lamp") == 0) {
		if (!now.poured)
			say("There is no oil in the great lamp.");
		else if (!now.fitted)
			say("It burns, a small yellow flame behind nothing. Nobody out there will see that. You "
			    "put it out again.");
		else
			win();
	} else
		say("That won't burn, or it isn't here.");
	if (dark && light_here() && now.end == 0)
		look(0);
}

static void put_out(void)
{
	if (noun == LANTERN && is_here(LANTERN))
		now.lantern_lit = 0;
	else if (noun == CANDLE && is_here(CANDLE))
		now.candle_lit = 0;
	else {
		say("It doesn't burn.");
		return;
	}
	say("It is out.");
}

static void fill(void)
{
	if (noun == CAN && has(CAN)) {
		if (now.here != OILSTORE)
			say("There is no oil here.");
		else {
			now.measures = 3;
			say("The can is full.");
		}
	} else if (noun == LANTERN && is_here(LANTERN)) {
		if (now.here == OILSTORE)
			now.oil = 200;
		else if (has(CAN) && now.measures > 0) {
			now.measures--;
			now.oil = 200;
		} else {
			say("You have no oil.");
			return;
		}
		say("The lantern is full.");
	} else
		say("That can't be filled.");
}

static void pour(void)
{
	if (!has(CAN) || now.measures == 0)
		say("You have no oil.");
	else if (noun == LANTERN) {
		fill();
	} else if (now.here != LAMPROOM)
		say("You would only make the floor slippery.");
	else if (now.poured)
		say("The great lamp is full.");
	else {
		now.measures--;
		now.poured = 1;
		say("The oil goes down into the great lamp.");
	}
}

static void push(void)
{
	if (now.here == CELLAR && noun_word && strcmp(noun_word, "barrel") == 0) {
		if (now.barrel_moved)
			say("It stands well where it stands.");
		else {
			now.barrel_moved = 1;
			say("The barrel is empty, and rolls aside. White steps lead down.");
		}
	} else
		say("Nothing moves.");
}

static void open_it(void)
{
	if (now.here == TRAM1) {
		if (now.cabin_open)
			say("It is open.");
		else if (!has(KEY))
			say("It is locked, and you have no key.");
		else {
			now.cabin_open = 1;
			say("The key turns, with a scream. The door is open.");
		}
	} else if (now.here == SHAFTHEAD || now.here == CLIFF)
		say(now.grate_open ? "It is open." : "Not with bare hands, and not from outside.");
	else if (now.here == SALTDOOR)
		say("It wants to be told something.");
	else
		say("There is nothing to open.");
}

static void lift(void)
{
	if (now.here != SHAFTHEAD)
		say("Nothing moves.");
	else if (!has(BAR))
		say("The grate gives the breadth of a hair. You would want a lever.");
	else {
		now.grate_open = 1;
		say("You lean on the bar, and the rust breaks. The grate swings out over the heather.");
	}
}

static void pump(void)
{
	if (now.here != ENGINE)
		say("There is no pump here.");
	else if (now.pumped)
		say("There is nothing left to pump.");
	else if (!has(BAR))
		say("The beam has a square hole, and no handle.");
	else {
		now.pumped = 1;
		now.turns += 10;
		say("You put the bar into the hole and lean on it. A groan; a cough; and far away water begins "
		    "to fall. When your arms give up, the shaft is "
		    "dry.");
	}
}

static void ring(void)
{
	if (!is_here(BELL))
		say("You have no bell.");
	else if (now.here != QUAY && now.here != FARQUAY)
		say("It has a clear voice. Nobody answers.");
	else if (now.here == FARQUAY || now.ferry_called)
		say("The ferryman turns his face to you. He is here.");
	else {
		now.ferry_called = 1;
		say("The sound goes out over the lake. After a while a boat comes out of the dark, without "
		    "haste. The ferryman has no eyes, but he holds "
		    "out a hand.");
	}
}

static void give(void)
{
	if (noun < 0 || !has(noun))
		say("You don't have that.");
	else if (now.here == DEN && !now.crab_fed) {
		if (noun == FISH) {
			now.crab_fed = 1;
			now.at[FISH] = NOWHERE;
			say("The crab takes the fish with one claw, tries it, and carries it into a corner. The "
			    "passage north is free.");
		} else
			say("The crab isn't interested.");
	} else if (now.here == QUAY && now.ferry_called && !now.ferry_paid) {
		if (noun == COIN) {
			now.ferry_paid = 1;
			now.at[COIN] = NOWHERE;
			say("He feels the boat on the coin with his thumb, and points to the bench.");
		} else
			say("He feels it, and gives it back.");
	} else
		say("Nobody here wants it.");
}

static void pay(void)
{
	noun = COIN;
	give();
}

static void speak(void)
{
	if (noun_word == NULL)
		say("Say what?");
	else if (now.here == SALTDOOR && strcmp(noun_word, "salt") == 0 && !now.salt_open) {
		now.salt_open = 1;
		say("The slab sinks into the floor, without a sound. There is a chapel to the north.");
	} else if (now.here == SALTDOOR && !now.salt_open)
		say("The door listens, and is not impressed.");
	else {
		sprintf(made, "\"%.20s\", say the walls.", noun_word);
		say(made);
	}
}

static void read_it(void)
{
	if (noun_word == NULL)
		look(1);
	else if (noun >= 0 && is_here(noun)) {
		say(things[noun].text);
		if (noun == LANTERN)
			printf("There is oil in it for %d turns.\n", now.oil);
		if (noun == CAN)
			printf("There are %d measures in it.\n", now.measures);
	} else
		say("You see nothing special.");
}

static void put(void)
{
	if (noun < 0 || !has(noun)) {
		say("You don't have that.");
		return;
	}
	if (noun == LENS && now.here == LAMPROOM) {
		now.fitted = 1;
		now.at[LENS] = NOWHERE;
		say("The lens slides into its ring as if it had never been away.");
	} else if (noun == BELL && now.here == QUAY) {
		now.bell_hung = 1;
		now.at[BELL] = QUAY;
		say("The bell hangs on the hook.");
	} else if (noun == BAR && now.here == ENGINE)
		pump();
	else
		drop();
}

static void save(void)
{
	int file = creat(SAVED, 0644);

	if (file < 0 || write(file, &now, sizeof now) != sizeof now)
		say("It can't be saved here.");
	else
		say("Saved as cave.save.");
	close(file);
}

static void restore(void)
{
	int file = open(SAVED, 0);

	if (file < 0 || read(file, &now, sizeof now) != sizeof now || now.here < 1 || now.here >= PLACES)
		say("There is no saved game here.");
	close(file);
	look(1);
}

static void help(void)
{
	say("Say what you do in one or two words: GO by north, east, south, west, up, down or their first "
	    "letters; look, take, drop, list, read, light, "
	    "open, push, fill, pour, give, put, ring, say and others. The keeper's table, in the kitchen, is "
	    "the place for what is worth keeping. "
	    "The ship comes at dawn. SAVE and RESTORE keep a game; QUIT ends it.");
}

static void show_score(void)
{
	printf("You have %d of 100 points, after %d turns.\n", score(), now.turns);
}

static void eat(void)
{
	if (noun == BREAD && has(BREAD)) {
		now.at[BREAD] = NOWHERE;
		say("That was needed.");
	} else if (noun == FISH && has(FISH))
		say("You would rather sell it as a board.");
	else
		say("Better not.");
}

static void act(void)
{
	switch (verb) {
	case V_NORTH: case V_EAST: case V_SOUTH: case V_WEST: case V_UP: case V_DOWN: go(verb - V_NORTH); break;
	case V_LOOK: look(1); break;
	case V_TAKE: take(); break;
	case V_DROP: drop(); break;
	case V_LIST: list(); break;
	case V_LIGHT: light(); break;
	case V_OUT: put_out(); break;
	case V_FILL: fill(); break;
	case V_PUSH: push(); break;
	case V_OPEN: open_it(); break;
	case V_PUMP: pump(); break;
	case V_RING: ring(); break;
	case V_PAY: pay(); break;
	case V_GIVE: give(); break;
	case V_SAY: speak(); break;
	case V_READ: read_it(); break;
	case V_EAT: eat(); break;
	case V_PUT: put(); break;
	case V_POUR: pour(); break;
	case V_LIFT: lift(); break;
	case V_SHOUT: say(now.here == ECHO ? "HALLO, hallo, hallo .. and from below: what?" : "Nobody answers."); break;
	case V_WAIT: say("Time passes."); break;
	case V_SCORE: show_score(); break;
	case V_SAVE: save(); break;
	case V_RESTORE: restore(); break;
	case V_HELP: help(); break;
	case V_QUIT: now.end = 3; break;
	case V_SWIM: say("The water is as cold as iron. No."); break;
	case V_DRINK: say("Salt, all of it."); break;
	case V_HIT: say("That would end badly, and not for them."); break;
	case V_BACK: say("Say in which direction."); break;
	}
}

static int thing_of(const char *word)
{
	int thing;

	for (thing = 0; thing < THINGS; thing++)
		if (strcmp(word, things[thing].word) == 0)
			return thing;
	return strcmp(word, "steel") == 0 ? FLINT : strcmp(word, "eye") == 0 ? LENS : strcmp(word, "pole") == 0 ? NET : -1;
}

/* Takes a line apart: the verb is the first word, the noun the first other one that is a thing, or else the last. */
static int understand(char *text)
{
	const struct word *word;
	char *other;

	verb = V_NONE;
	noun = -1;
	noun_word = NULL;
	verb_word = next_word(&text);
	if (verb_word && (strcmp(verb_word, "go") == 0 || strcmp(verb_word, "walk") == 0))
		verb_word = next_word(&text);
	if (verb_word == NULL)
		return 0;
	for (word = verbs; word->word; word++)
		if (strcmp(word->word, verb_word) == 0)
			verb = word->verb;
	while (noun < 0 && (other = next_word(&text)) != NULL)
		if (strcmp(other, "the") && strcmp(other, "a") && strcmp(other, "up") && strcmp(other, "in")) {
			noun_word = other;
			noun = thing_of(other);
		}
	return verb != V_NONE;
}

/* What goes on by itself in a turn: flames, the tide, the ship. */
static void pass_turn(void)
{
	int was = light_here();

	now.turns++;
	if (now.lantern_lit && --now.oil <= 0) {
		now.oil = now.lantern_lit = 0;
		say("The lantern goes out.");
	} else if (now.lantern_lit && now.oil == 20 && is_here(LANTERN))
		say("The lantern burns low.");
	if (now.candle_lit && --now.wax <= 0) {
		now.wax = now.candle_lit = 0;
		say("The candle is burnt down.");
	}
	if (was && !light_here())
		say("It is pitch dark.");
	if (light_here())
		now.falls = 0;
	if ((rooms[now.here].kind & TIDAL) && !low_tide()) {
		say("The sea comes in, all at once. It takes you by the neck, turns you over twice, and lays "
		    "you down on the beach.");
		now.here = BEACH;
		if (has(LANTERN))
			now.lantern_lit = 0;
		if (has(CANDLE))
			now.candle_lit = 0;
		look(0);
	}
	if (now.turns >= DAWN)
		finish("A grey line in the east: dawn. Far away, and yet much too near, wood breaks on rock. "
		    "The lamp was dark.");
	else if (now.turns == 200 || now.turns == 350)
		say(rooms[now.here].kind & OPEN_AIR ? "Far out on the sea there is the light of a "
		    "ship." : "Faintly, through all the rock, you hear a ship's horn.");
}

static void begin(void)
{
	int thing;

	now.here = CLIFF;
	now.oil = 150;
	now.wax = 60;
	for (thing = 0; thing < THINGS; thing++)
		now.at[thing] = things[thing].at;
	say("The lighthouse on Salt Head has been dark for three nights. You have come to see why. (HELP tells "
	    "how to play.)");
	look(1);
}

int main(void)
{
	int size;

	begin();
	while (now.end == 0) {
		printf("> ");
		fflush(stdout);
		if (fgets(line, 80, stdin) == NULL)
			break;
		size = strlen(line);
		if (size && line[size - 1] == '\n')
			line[size - 1] = 0;
		if (!understand(line)) {
			if (verb_word)
				say("You don't know how to do that.");
			continue;
		}
		act();
		if (now.end == 0 && verb != V_SCORE && verb != V_SAVE && verb != V_RESTORE && verb != V_HELP && verb != V_LIST)
			pass_turn();
	}
	show_score();
	return 0;
}
