/* The places of the cave, its things and its words. */
enum place {
	NOWHERE,
	CLIFF, YARD, KITCHEN, LARDER, TOWER, LAMPROOM, CELLAR, BEACH, BOATHOUSE, SEACAVE,
	SEAPASS, WETGAL, SHELLS, GAUGE, STAIR1, STAIR2, STAIR3, NICHE, HALL, FISHGAL,
	CRAWL, ECHO, CHIMNEY, LEDGE, BATS, DRIP, DEN, POOLSIDE, ADIT, TRAM1,
	CABIN, TRAM2, POWDER, TIMBER, ENGINE, DRIFT, DROWNED, LODE, OILSTORE, SHAFTFOOT,
	SHAFTMID, SHAFTHEAD, WARREN1, WARREN2, WARREN3, WARREN4, WARREN5, WARREN6, WARREN7, WARREN8,
	GROTTO, QUAY, FARQUAY, AVENUE, STEPS, SALTDOOR, CHAPEL, CHOIR, CRYPT, WELL,
	SCALE, TREASURY, PLACES,
	CARRIED
};

enum { NORTH, EAST, SOUTH, WEST, UP, DOWN, WAYS };

#define OPEN_AIR 1		/* it is light there */
#define TIDAL 2			/* the sea fills it */

struct room {
	const char *name, *text;
	unsigned char to[WAYS];		/* north, east, south, west, up, down */
	char kind;
};

static const struct room rooms[PLACES] = {
	{ "", "", { 0, 0, 0, 0, 0, 0 }, 0 },
	{ "Cliff path", "The path from the village ends here, at the edge of the land. The lighthouse stands to "
	  "the north, and for the third night "
	  "its lamp is dark. A track goes down to a beach. In the heather to the east there is something made of iron.",
	  { YARD, SHAFTHEAD, 0, 0, 0, BEACH }, OPEN_AIR },
	{ "Lighthouse yard", "A yard with a wall around it, and a flagpole without a flag. The door to the "
	  "north is open; it shouldn't be. "
	  "A path leads south to the cliff.",
	  { KITCHEN, 0, CLIFF, 0, 0, 0 }, OPEN_AIR },
	{ "Keeper's kitchen", "The stove is cold. On the slate over the table the keeper wrote: LENS GONE. OIL "
	  "GONE. SHIP DUE AT DAWN. THEY TOOK IT "
	  "DOWN. Stairs go up into the tower and down to a cellar; a larder is to the east, the yard to the south.",
	  { 0, LARDER, YARD, 0, TOWER, CELLAR }, OPEN_AIR },
	{ "Larder", "Hooks, shelves, a smell of smoke. Mice have been here before you, but not for everything.",
	  { 0, 0, 0, KITCHEN, 0, 0 }, OPEN_AIR },
	{ "Tower stair", "A hundred and twelve steps, with a window for each quarter of the wind. A card on the "
	  "wall: SHE WANTS THREE THINGS. HER EYE, "
	  "HER DRINK, AND A SPARK.",
	  { 0, 0, 0, 0, LAMPROOM, KITCHEN }, OPEN_AIR },
	{ "Lamp room", "Glass all round, and the whole dark sea outside. In the middle the great lamp stands on "
	  "its wheel, blind: the ring for its lens "
	  "is empty.",
	  { 0, 0, 0, 0, 0, TOWER }, OPEN_AIR },
	{ "Cellar", "A cellar cut out of the rock. The air moves here, as it shouldn't in a cellar.",
	  { 0, 0, 0, 0, KITCHEN, STAIR1 }, 0 },
	{ "Beach", "Shingle and weed below the cliff. A track goes up. There is a boathouse to the east, and to "
	  "the west the foot of the cliff "
	  "has a hole in it.",
	  { 0, BOATHOUSE, 0, SEACAVE, CLIFF, 0 }, OPEN_AIR },
	{ "Boathouse", "The boat is gone: its keel has drawn a line through the sand, not to the sea, but from "
	  "it. Oilskins hang on the wall.",
	  { 0, 0, 0, BEACH, 0, 0 }, OPEN_AIR },
	{ "Sea cave", "Wet walls up to twice your height, with weed on them. A passage leads north into the "
	  "rock; daylight, or what there is of it, is "
	  "to the east.",
	  { SEAPASS, BEACH, 0, 0, 0, 0 }, TIDAL },
	{ "Sea passage", "A tube that the waves have ground smooth. Pools on the floor, limpets on the roof: "
	  "you know what that means.",
	  { WETGAL, 0, SEACAVE, 0, 0, 0 }, TIDAL },
	{ "Wet gallery", "The passage rises into a gallery that drips. A dry way goes on to the north, and a "
	  "bank of shells gleams to the east.",
	  { GAUGE, SHELLS, SEAPASS, 0, 0, 0 }, TIDAL },
	{ "Bank of shells", "Shells by the thousand, sorted by the sea from the large to the small. It has made "
	  "a bed here for something.",
	  { 0, 0, 0, WETGAL, 0, 0 }, 0 },
	{ "Tide gauge", "Miners have set a staff into a hole in the floor, with marks cut into it, so that they "
	  "knew when the way to the sea was open. "
	  "The hole leads south; a drier passage goes east.",
	  { 0, DRIP, WETGAL, 0, 0, 0 }, 0 },
	{ "Top of the salt stair", "Steps lead down from the cellar, cut by somebody who had all the time there "
	  "is. They are white, and taste of salt.",
	  { 0, 0, 0, 0, CELLAR, STAIR2 }, 0 },
	{ "Landing", "Halfway down the salt stair there is a landing, and an opening to the east.",
	  { 0, NICHE, 0, 0, STAIR1, STAIR3 }, 0 },
	{ "Foot of the stair", "The last step is worn like a spoon. A wide opening leads north.",
	  { HALL, 0, 0, 0, STAIR2, 0 }, 0 },
	{ "Niche", "A niche with a stone bench. Over it a fish is carved, one fish, and below the fish a letter: S.",
	  { 0, 0, 0, STAIR2, 0, 0 }, 0 },
	{ "Hall of pillars", "Pillars of salt hold the roof; the miners left them, and wisely. You hear water "
	  "to the north. Passages lead east and west, "
	  "and the stair is to the south.",
	  { QUAY, FISHGAL, STAIR3, DRIP, 0, 0 }, 0 },
	{ "Fish gallery", "Along this gallery somebody has carved fish, swimming east, and rubbed all of them "
	  "out again but two. Below the two: A.",
	  { 0, CRAWL, 0, HALL, 0, 0 }, 0 },
	{ "Low crawl", "So low that you go on your elbows. Who carries much doesn't come through here.",
	  { 0, ECHO, 0, FISHGAL, 0, 0 }, 0 },
	{ "Echo chamber", "Your breath comes back to you from five sides. There is a chimney above you, a smell "
	  "of fish to the north, and the crawl is to the "
	  "west.",
	  { DEN, 0, 0, CRAWL, CHIMNEY, 0 }, 0 },
	{ "Chimney", "You stand with your back to one wall and your feet against the other.",
	  { 0, 0, 0, 0, LEDGE, ECHO }, 0 },
	{ "Ledge", "A ledge, just wide enough. It goes on to the east, and the chimney goes down.",
	  { 0, BATS, 0, 0, 0, CHIMNEY }, 0 },
	{ "Bats' loft", "What looks like a black velvet ceiling breathes. Three fish are carved here, under "
	  "three centuries of bats, and the letter L.",
	  { 0, 0, 0, LEDGE, 0, 0 }, 0 },
	{ "Dripping chamber", "Each drop falls into the hole that the ones before it made. Ways lead east, west "
	  "and north; by the northern one there are "
	  "the marks of tools.",
	  { ADIT, HALL, 0, GAUGE, 0, 0 }, 0 },
	{ "Crab's den", "A den strewn with shells that have been opened from outside. The echo chamber is to "
	  "the south; a passage goes north.",
	  { POOLSIDE, 0, ECHO, 0, 0, 0 }, 0 },
	{ "By the still pool", "A pool so still that you see the roof in it better than above you. To the east "
	  "the rock is full of holes, as a cheese is.",
	  { 0, WARREN1, DEN, 0, 0, 0 }, 0 },
	{ "Adit", "Here the cave ends and the mine begins: straight walls, a level floor, and rails to the north.",
	  { TRAM1, 0, DRIP, 0, 0, 0 }, 0 },
	{ "Tram road", "Rails run from south to north. In the eastern wall is a door, and on it: FOREMAN.",
	  { TRAM2, CABIN, ADIT, 0, 0, 0 }, 0 },
	{ "Foreman's cabin", "A desk, a stool, a stove pipe that leads nowhere. On the desk is a calendar; its "
	  "last leaf is sixty years old.",
	  { 0, 0, 0, TRAM1, 0, 0 }, 0 },
	{ "Crossing", "Four ways meet under a frame of oak. POWDER, says a board to the west. A draught comes "
	  "from the north.",
	  { SHAFTFOOT, TIMBER, TRAM1, POWDER, 0, 0 }, 0 },
	{ "Powder store", "A dry niche with copper nails in its shelves, since copper gives no sparks. There is "
	  "no powder left.",
	  { 0, TRAM2, 0, 0, 0, 0 }, 0 },
	{ "Timbered gallery", "Props stand close here, and some of them have begun to bend. It is not a place "
	  "to sing in.",
	  { 0, ENGINE, 0, TRAM2, 0, 0 }, 0 },
	{ "Engine room", "A pump as large as a horse, with a beam, and a square hole in the beam where its "
	  "handle was. A ladder goes down into a shaft.",
	  { 0, 0, 0, TIMBER, 0, DRIFT }, 0 },
	{ "Drift", "Until lately this was full of water: everything is clean, and shines. The drift leads east, "
	  "and a ladder up.",
	  { 0, DROWNED, 0, 0, ENGINE, 0 }, 0 },
	{ "Drowned gallery", "A tub stands on its rails as it was left, loaded. Openings lead north and south.",
	  { LODE, 0, OILSTORE, DRIFT, 0, 0 }, 0 },
	{ "Lode", "Green and red veins climb the wall: copper. They stopped when the water came, and left their "
	  "best piece where it lay.",
	  { 0, 0, DROWNED, 0, 0, 0 }, 0 },
	{ "Oil store", "Stone jars as high as your shoulder, sealed with wax against the water. One of them is "
	  "open. It is full of lamp oil.",
	  { DROWNED, 0, 0, 0, 0, 0 }, 0 },
	{ "Foot of the shaft", "Far above is a square of grey. Iron rungs lead up to it.",
	  { 0, 0, TRAM2, 0, SHAFTMID, 0 }, 0 },
	{ "In the shaft", "You hang on rungs between one dark and another. Somebody has scratched into the "
	  "wall: 2 + 5 AND DON'T FORGET IT.",
	  { 0, 0, 0, 0, SHAFTHEAD, SHAFTFOOT }, 0 },
	{ "Head of the shaft", "A small house of stone over the mouth of the shaft, with an iron grate for a "
	  "door, to the west.",
	  { 0, 0, 0, CLIFF, 0, SHAFTMID }, OPEN_AIR },
	{ "Warren", "You are in a warren of holes in salt, all alike. Air moves in it.",
	  { WARREN3, WARREN2, WARREN1, POOLSIDE, WARREN4, WARREN1 }, 0 },
	{ "Warren", "You are in a warren of holes in salt, all alike. Air moves in it.",
	  { WARREN5, WARREN1, WARREN4, WARREN1, WARREN2, WARREN3 }, 0 },
	{ "Warren", "You are in a warren of holes in salt, all alike. Air moves in it.",
	  { WARREN1, WARREN3, WARREN2, WARREN4, WARREN1, WARREN3 }, 0 },
	{ "Warren", "You are in a warren of holes in salt, all alike. Air moves in it.",
	  { WARREN2, WARREN4, WARREN3, WARREN1, WARREN4, WARREN1 }, 0 },
	{ "Warren", "You are in a warren of holes in salt, all alike. Air moves in it.",
	  { WARREN1, WARREN2, WARREN3, WARREN5, WARREN4, WARREN6 }, 0 },
	{ "Warren", "You are in a warren of holes in salt, all alike. Air moves in it.",
	  { WARREN6, WARREN1, WARREN2, WARREN7, WARREN5, WARREN3 }, 0 },
	{ "Warren", "You are in a warren of holes in salt, all alike. Air moves in it.",
	  { WARREN1, WARREN6, WARREN8, WARREN2, WARREN3, WARREN7 }, 0 },
	{ "Warren", "You are in a warren of holes in salt, all alike. Air moves in it.",
	  { WARREN7, GROTTO, WARREN1, WARREN3, WARREN2, WARREN8 }, 0 },
	{ "Grotto", "The warren opens into a grotto, and your light comes back from a thousand cubes of salt. "
	  "On the largest four fish are carved, and T.",
	  { 0, 0, 0, WARREN8, 0, 0 }, 0 },
	{ "Quay", "A quay of dressed stone on a black lake. A post stands at the edge with a hook for a bell, "
	  "and a board: RING. PAY. SIT STILL.",
	  { FARQUAY, 0, HALL, 0, 0, 0 }, 0 },
	{ "Far quay", "The other shore. Behind you the boat waits on the lake; before you, to the north, stand "
	  "two rows of lamps.",
	  { AVENUE, 0, QUAY, 0, 0, 0 }, 0 },
	{ "Avenue of lamps", "Lamps of stone, which never burned. The avenue leads north to a flight of steps. "
	  "A narrow way leaves it to the east.",
	  { STEPS, SCALE, FARQUAY, 0, 0, 0 }, 0 },
	{ "Steps", "Twelve steps, each with a name, each name worn away. They go up to the north.",
	  { SALTDOOR, 0, AVENUE, 0, SALTDOOR, AVENUE }, 0 },
	{ "Door of salt", "A door made of one slab of salt fills the arch to the north. It has no handle and no "
	  "lock. Cut into it: ONE, TWO, THREE, FOUR "
	  "FISH KNOW WHAT I AM. TELL ME.",
	  { CHAPEL, 0, STEPS, 0, 0, STEPS }, 0 },
	{ "Salt chapel", "White benches face a white altar, and on it is carved: SEVEN YEARS IT RAINED, AND THE "
	  "SEA CAME IN. A stair goes up to a loft, "
	  "another down; water glimmers to the north.",
	  { WELL, 0, SALTDOOR, 0, CHOIR, CRYPT }, 0 },
	{ "Choir loft", "From here the singers looked down on the benches. They have left one thing for you to "
	  "drink from.",
	  { 0, 0, 0, 0, 0, CHAPEL }, 0 },
	{ "Crypt", "Shelves in the wall, and on each shelf a bundle of white, very small. You don't look closer.",
	  { 0, 0, 0, 0, CHAPEL, 0 }, 0 },
	{ "Well", "A round well, full to the brim. Deep down in it something is looking at you: an eye of "
	  "glass, as large as a plate.",
	  { 0, 0, CHAPEL, 0, 0, 0 }, 0 },
	{ "House of the scale", "A pan of bronze hangs from a beam in the middle, and over it are seven rings, "
	  "cut in the stone. To the east is a gate.",
	  { 0, TREASURY, 0, AVENUE, 0, 0 }, 0 },
	{ "Treasury", "Whoever lived here had one treasure, and built a house for it.",
	  { 0, 0, 0, SCALE, 0, 0 }, 0 },
};

enum thing {
	LANTERN, FLINT, CAN, BREAD, FISH, NET, COIN, CANDLE, KEY, BAR,
	BOOK, BELL, RED, BLACK, WHITE, GREY, LENS,
	PEARL, RING, NUGGET, CRYSTAL, CUP, CHAIN, THINGS
};

struct thing_kind {
	const char *word, *name, *text;
	unsigned char at;
};

static const struct thing_kind things[THINGS] = {
	{ "lantern", "a lantern", "A ship's lantern with a glass. It burns oil.", KITCHEN },
	{ "flint", "flint and steel", "Strike it, and what you hold to it burns.", KITCHEN },
	{ "can", "an oil can", "A can for oil. It holds three measures.", CELLAR },
	{ "bread", "a loaf of bread", "Hard, but bread.", LARDER },
	{ "fish", "a dried fish", "A cod, dried to a board. It smells a mile off.", LARDER },
	{ "net", "a net on a pole", "A landing net with a handle of two fathoms.", BOATHOUSE },
	{ "coin", "a copper coin", "On the one side a boat, on the other the words FOR BOTH WAYS.", BOATHOUSE },
	{ "candle", "a candle", "A wax candle. Its flame would lean with any breath of air.", NICHE },
	{ "key", "a key", "An iron key with a tag: FOREMAN.", GAUGE },
	{ "bar", "an iron bar", "A square bar, bent at its end, as long as your arm.", CABIN },
	{ "book", "a book", "The foreman's journal. \"Pump broke its handle again. Water up to the drift. .. In "
	  "the warrens follow the flame: it "
	  "leans to where the air goes, and that is in at low water, and out at high. .. Jan fed the beast a "
	  "fish, and it let him by. .. The red stone has one ring, the black "
	  "two, the white three, the grey five.\"", CABIN },
	{ "bell", "a small bell", "A bell of brass with a hook.", POWDER },
	{ "red", "a red stone", "A red stone, round. One ring is cut into it.", FISHGAL },
	{ "black", "a black stone", "A black stone, round. Two rings are cut into it.", LODE },
	{ "white", "a white stone", "A white stone, round. Three rings are cut into it.", CRYPT },
	{ "grey", "a grey stone", "A grey stone, round. Five rings are cut into it.", ECHO },
	{ "lens", "the lens", "The eye of the great lamp, ring within ring of glass.", WELL },
	{ "pearl", "a pearl", "A pearl, as large as an egg.", SHELLS },
	{ "ring", "a gold ring", "A ring, too small for any finger.", BATS },
	{ "nugget", "a copper nugget", "Pure copper, in the form of a hand.", LODE },
	{ "crystal", "a crystal", "A cube of salt without a flaw.", GROTTO },
	{ "cup", "a silver cup", "A cup with fish around its rim.", CHOIR },
	{ "chain", "a gold chain", "A chain of little golden fish, each holding the next by the tail.", TREASURY },
};

enum verb {
	V_NONE, V_NORTH, V_EAST, V_SOUTH, V_WEST, V_UP, V_DOWN, V_LOOK, V_TAKE, V_DROP, V_LIST, V_LIGHT, V_OUT, V_FILL, V_PUSH,
	V_OPEN, V_PUMP, V_RING, V_PAY, V_GIVE, V_SAY, V_READ, V_EAT, V_PUT, V_POUR, V_LIFT, V_SHOUT, V_WAIT, V_SCORE, V_SAVE,
	V_RESTORE, V_HELP, V_QUIT, V_SWIM, V_DRINK, V_HIT, V_BACK
};

struct word {
	const char *word;
	char verb;
};

static const struct word verbs[] = {
	{ "n", V_NORTH }, { "north", V_NORTH }, { "e", V_EAST }, { "east", V_EAST }, { "s", V_SOUTH }, { "south", V_SOUTH },
	{ "w", V_WEST }, { "west", V_WEST }, { "u", V_UP }, { "up", V_UP }, { "climb", V_UP }, { "d", V_DOWN },
	{ "down", V_DOWN },
	{ "look", V_LOOK }, { "l", V_LOOK }, { "take", V_TAKE }, { "get", V_TAKE }, { "pick", V_TAKE }, { "catch", V_TAKE },
	{ "drop", V_DROP }, { "leave", V_DROP }, { "i", V_LIST }, { "inventory", V_LIST }, { "list", V_LIST },
	{ "light", V_LIGHT },
	{ "burn", V_LIGHT }, { "strike", V_LIGHT }, { "out", V_OUT }, { "extinguish", V_OUT }, { "blow", V_OUT },
	{ "fill", V_FILL },
	{ "push", V_PUSH }, { "move", V_PUSH }, { "roll", V_PUSH }, { "open", V_OPEN }, { "unlock", V_OPEN },
	{ "pump", V_PUMP },
	{ "ring", V_RING }, { "pay", V_PAY }, { "give", V_GIVE }, { "feed", V_GIVE }, { "throw", V_GIVE }, { "say", V_SAY },
	{ "tell", V_SAY }, { "read", V_READ }, { "examine", V_READ }, { "x", V_READ }, { "eat", V_EAT }, { "put", V_PUT },
	{ "fit", V_PUT }, { "set", V_PUT }, { "hang", V_PUT }, { "pour", V_POUR }, { "lift", V_LIFT }, { "pull", V_LIFT },
	{ "force", V_LIFT }, { "shout", V_SHOUT }, { "wait", V_WAIT }, { "z", V_WAIT }, { "score", V_SCORE },
	{ "save", V_SAVE },
	{ "restore", V_RESTORE }, { "help", V_HELP }, { "quit", V_QUIT }, { "q", V_QUIT }, { "swim", V_SWIM },
	{ "drink", V_DRINK },
	{ "hit", V_HIT }, { "kill", V_HIT }, { "back", V_BACK }, { 0, 0 }
};
