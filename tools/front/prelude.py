"""The names that every module has, of Haskell's Prelude and of Yampa.Whole, with their types; and those that it hasn't, with the remedy."""

TYPES = """
(+),(-),(*) :: Int -> Int -> Int
negate,abs,signum,fromIntegral :: Int -> Int
subtract :: Int -> Int -> Int
min,max :: Ord a => a -> a -> a
(==),(/=) :: Eq a => a -> a -> Bool
(<),(<=),(>),(>=) :: Ord a => a -> a -> Bool
(&&),(||) :: Bool -> Bool -> Bool
not :: Bool -> Bool
otherwise :: Bool
fst :: (a, b) -> a
snd :: (a, b) -> b
id :: a -> a
const :: a -> b -> a
flip :: (a -> b -> c) -> b -> a -> c
curry :: ((a, b) -> c) -> a -> b -> c
uncurry :: (a -> b -> c) -> (a, b) -> c
(.) :: (b -> c) -> (a -> b) -> a -> c
($),($!) :: (a -> b) -> a -> b
seq :: a -> b -> b
fromEnum :: Enum a => a -> Int
toEnum :: Enum a => Int -> a
succ,pred :: Enum a => a -> a
minBound,maxBound :: Bounded a => a
(^) :: Int -> Int -> Int
maybe :: b -> (a -> b) -> Maybe a -> b
fromMaybe :: a -> Maybe a -> a
isJust,isNothing :: Maybe a -> Bool
map :: (a -> b) -> [a] -> [b]
filter :: (a -> Bool) -> [a] -> [a]
zip :: [a] -> [b] -> [(a, b)]
zip3 :: [a] -> [b] -> [c] -> [(a, b, c)]
unzip :: [(a, b)] -> ([a], [b])
zipWith :: (a -> b -> c) -> [a] -> [b] -> [c]
zipWith3 :: (a -> b -> c -> d) -> [a] -> [b] -> [c] -> [d]
foldr :: (a -> b -> b) -> b -> [a] -> b
foldl,foldl' :: (b -> a -> b) -> b -> [a] -> b
foldr1,foldl1 :: (a -> a -> a) -> [a] -> a
scanl :: (b -> a -> b) -> b -> [a] -> [b]
sum,product :: [Int] -> Int
maximum,minimum :: Ord a => [a] -> a
and,or :: [Bool] -> Bool
any,all :: (a -> Bool) -> [a] -> Bool
elem,notElem :: Eq a => a -> [a] -> Bool
concat :: [[a]] -> [a]
concatMap :: (a -> [b]) -> [a] -> [b]
replicate :: Int -> a -> [a]
take,drop :: Int -> [a] -> [a]
takeWhile,dropWhile :: (a -> Bool) -> [a] -> [a]
splitAt :: Int -> [a] -> ([a], [a])
lookup :: Eq a => a -> [(a, b)] -> Maybe b
mapMaybe :: (a -> Maybe b) -> [a] -> [b]
catMaybes :: [Maybe a] -> [a]
reverse,tail,init :: [a] -> [a]
head,last :: [a] -> a
null :: [a] -> Bool
(!!) :: [a] -> Int -> a
(++) :: [a] -> [a] -> [a]
length :: [a] -> Int
nth :: [a] -> Int -> a -> a
at :: [Int] -> [a] -> [a]
event :: a -> (b -> a) -> Event b -> a
fmap,(<$>) :: (a -> b) -> Event a -> Event b
(<$) :: a -> Event b -> Event a
($>) :: Event a -> b -> Event b
isEvent,isNoEvent :: Event a -> Bool
maybeToEvent :: Maybe a -> Event a
tag :: Event a -> b -> Event b
tagWith :: b -> Event a -> Event b
attach :: Event a -> b -> Event (a, b)
gate :: Event a -> Bool -> Event a
lMerge,rMerge :: Event a -> Event a -> Event a
mergeBy :: (a -> a -> a) -> Event a -> Event a -> Event a
joinE :: Event a -> Event b -> Event (a, b)
splitE :: Event (a, b) -> (Event a, Event b)
filterE :: (a -> Bool) -> Event a -> Event a
mapFilterE :: (a -> Maybe b) -> Event a -> Event b
arr :: (a -> b) -> SF a b
identity,returnA :: SF a a
constant :: b -> SF a b
(>>>) :: SF a b -> SF b c -> SF a c
(<<<) :: SF b c -> SF a b -> SF a c
(>>^) :: SF a b -> (b -> c) -> SF a c
(^>>) :: (a -> b) -> SF b c -> SF a c
(***) :: SF a b -> SF c d -> SF (a, c) (b, d)
(&&&) :: SF a b -> SF a c -> SF a (b, c)
first :: SF a b -> SF (a, c) (b, c)
second :: SF a b -> SF (c, a) (c, b)
loopPre :: c -> SF (a, c) (b, c) -> SF a b
iPre :: a -> SF a a
delay :: Int -> a -> SF a a
hold,dHold :: a -> SF (Event a) a
trackAndHold :: a -> SF (Maybe a) a
accum :: a -> SF (Event (a -> a)) (Event a)
accumHold :: a -> SF (Event (a -> a)) a
accumBy :: (b -> a -> b) -> b -> SF (Event a) (Event b)
accumHoldBy :: (b -> a -> b) -> b -> SF (Event a) b
never :: SF a (Event b)
now :: b -> SF a (Event b)
after,repeatedly :: Int -> b -> SF a (Event b)
edge :: SF Bool (Event ())
iEdge :: Bool -> SF Bool (Event ())
edgeTag :: a -> SF Bool (Event a)
notYet,once :: SF (Event a) (Event a)
time,localTime :: SF a Int
integral :: SF Int Int
(-->) :: b -> SF a b -> SF a b
(>--) :: a -> SF a b -> SF a b
switch,dSwitch :: SF a (b, Event c) -> (c -> SF a b) -> SF a b
rSwitch,drSwitch :: SF a b -> SF (a, Event (SF a b)) b
kSwitch :: SF a b -> SF (a, b) (Event c) -> (SF a b -> c -> SF a b) -> SF a b
parB :: [SF a b] -> SF a [b]
pSwitch :: (a -> [SF b c] -> [(b, SF b c)]) -> [SF b c] -> SF (a, [c]) (Event d) -> ([SF b c] -> d -> SF a [c]) -> SF a [c]
pSwitchB :: [SF a b] -> SF (a, [b]) (Event c) -> ([SF a b] -> c -> SF a [b]) -> SF a [b]
rpSwitchB :: [SF a b] -> SF (a, Event ([SF a b] -> [SF a b])) [b]
"""

# Types that say what a definition is for: what is said of the input, or of the pair of input and output.
PROPERTIES = {"Assume": "assume", "Guarantee": "guarantee", "Invariant": "invariant", "Cover": "cover"}
# How many parts each type has, and the classes that it is of where its parts are.
BUILT_IN = {"Int": 0, "Bool": 0, "()": 0, "Event": 1, "Maybe": 1, "[]": 1, "SF": 2, "->": 2}
CLASSES = ("Eq", "Ord", "Enum", "Show", "Bounded", "Read")

LATER = "waits for version 4 of the core"
NO_DIVISION = f"there is no division in the core ({{}} {LATER}): multiply by the other side, or use a table (nth)"
NO_BITS = f"there are no operations on bits in the core ({{}} {LATER}): use a table (nth), or a data of names"
ABSENT = {
    **{word: NO_DIVISION.format(word) for word in ("div", "mod", "quot", "rem", "divMod", "quotRem", "even", "odd", "gcd", "lcm")},
    **{word: NO_BITS.format(word) for word in (".&.", ".|.", "xor", "shiftL", "shiftR", "complement", "testBit", "popCount")},
    **dict.fromkeys(("/", "sqrt", "sin", "cos", "exp", "pi", "realToFrac", "round", "truncate", "floor", "ceiling"), "numbers are whole here: choose a small unit"),
    **dict.fromkeys(("show", "read", "putStrLn", "print", "words", "lines"), "there are no texts here; a network's output is printed by yampa run"),
    **dict.fromkeys(("return", ">>=", ">>", "pure", "<*>", "mapM_"), "there are no monads here: a network is written with proc and do, or with arr and >>>"),
    **dict.fromkeys(("loop",), "loop has no state: write rec with iPre, or loopPre"),
    **dict.fromkeys(("dpSwitchB", "dpSwitch", "rpSwitch", "drpSwitch", "parZ", "par"), "it is not here: of collections there are parB, pSwitch, pSwitchB and rpSwitchB"),
    **dict.fromkeys(("error", "undefined"), "nothing fails while a network runs: give a value"),
    **dict.fromkeys(("iterate", "cycle", "repeat", "until"), "lists have an end here: write [f k | k <- [0 .. 7]], say"),
}
ABSENT |= {"=<": "write <=", "!=": "write /=", "&": "write &&", "add": "write +", "sub": "write -", "mul": "write *", "less": "write <", "equal": "write =="}
# Names of the Prelude that a module can't define without a clash in GHC.
TAKEN = set(
    """Applicative asTypeOf break ceiling compare cos cycle either error even exp filter floor foldMap fromInteger gcd getLine
    init interact iterate lcm lines log mapM mapM_ mappend mconcat mempty odd pi print properFraction pure
    putStr putStrLn read reads realToFrac repeat return round scanl1 scanr sequence show showString shows sin span sqrt
    tan toInteger traverse truncate undefined unlines until unwords unzip3 userError words lex runSF div mod quot rem
    divMod quotRem readFile writeFile elem getContents""".split()
)
# Types of Haskell that aren't here, with the remedy.
NO_TYPES = {
    "Integer": "there is no Integer here, only Int, of 64 bits",
    "Either": "there is no Either here: write a data with two constructors",
    "IO": "there is no IO here: a network is run by yampa run",
    "Ordering": "there is no Ordering here: use < and ==",
    **dict.fromkeys(("Double", "Float", "Rational"), "numbers are Int here, in a unit that is small enough"),
    **dict.fromkeys(("String", "Char", "Text"), "there are no texts and no characters here: use numbers, or a data of names"),
    **dict.fromkeys(("Word", "Word8", "Word16", "Word32", "Int8", "Int16", "Int32", "Int64"), "numbers are Int here, of 64 bits"),
}
