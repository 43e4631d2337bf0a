{-# LANGUAGE ExistentialQuantification, ScopedTypeVariables #-}
-- | Values as the workbench's streams spell them, and runs of networks on files.
module Wire (Wire(..), X, nested, parts, number, runAll, Case(..)) where

import Control.Exception (SomeException, catch)
import Control.Monad (forM_)
import Data.Proxy (Proxy(..))
import Yampa.Whole

-- | A word, or what stands in parentheses.
data X = Word String | List [X]

-- | What can be in a sample: how it is written and read, and what stands in the place of one that isn't there.
class Wire a where
  put :: a -> String
  get :: X -> a
  blank :: Proxy a -> String

-- | Nested pairs of texts, and the parts of nested pairs.
nested :: [String] -> String
nested [] = "unit"
nested [s] = s
nested (s : ss) = "(pair " ++ s ++ " " ++ nested ss ++ ")"

parts :: Int -> X -> [X]
parts 0 _ = []
parts 1 x = [x]
parts n (List [_, a, b]) = a : parts (n - 1) b
parts _ _ = error "no pair"

number :: X -> Int
number (Word s) = read s
number _ = error "no number"

instance Wire Int where
  put = show
  get = number
  blank _ = "0"

instance Wire Bool where
  put b = if b then "true" else "false"
  get (Word s) = s == "true"
  get _ = error "no truth"
  blank _ = "false"

instance Wire () where
  put _ = "unit"
  get _ = ()
  blank _ = "unit"

instance Wire a => Wire (Event a) where
  put = put . event Nothing Just
  get = maybe NoEvent Event . get
  blank _ = "none"

instance Wire a => Wire (Maybe a) where
  put = maybe "none" (\v -> "(event " ++ put v ++ ")")
  get (List [_, v]) = Just (get v)
  get _ = Nothing
  blank _ = "none"

instance Wire a => Wire [a] where
  put vs = "(list" ++ concatMap ((' ' :) . put) vs ++ ")"
  get (List (_ : vs)) = map get vs
  get _ = error "no list"
  blank _ = "(list)"

instance (Wire a, Wire b) => Wire (a, b) where
  put (a, b) = nested [put a, put b]
  get x = case parts 2 x of { [a, b] -> (get a, get b); _ -> error "no pair" }
  blank _ = nested [blank (Proxy :: Proxy a), blank (Proxy :: Proxy b)]

instance (Wire a, Wire b, Wire c) => Wire (a, b, c) where
  put (a, b, c) = put (a, (b, c))
  get x = let (a, (b, c)) = get x in (a, b, c)
  blank _ = blank (Proxy :: Proxy (a, (b, c)))

instance (Wire a, Wire b, Wire c, Wire d) => Wire (a, b, c, d) where
  put (a, b, c, d) = put (a, (b, c, d))
  get x = let (a, (b, c, d)) = get x in (a, b, c, d)
  blank _ = blank (Proxy :: Proxy (a, (b, c, d)))

instance (Wire a, Wire b, Wire c, Wire d, Wire e) => Wire (a, b, c, d, e) where
  put (a, b, c, d, e) = put (a, (b, c, d, e))
  get x = let (a, (b, c, d, e)) = get x in (a, b, c, d, e)
  blank _ = blank (Proxy :: Proxy (a, (b, c, d, e)))

instance (Wire a, Wire b, Wire c, Wire d, Wire e, Wire f) => Wire (a, b, c, d, e, f) where
  put (a, b, c, d, e, f) = put (a, (b, c, d, e, f))
  get x = let (a, (b, c, d, e, f)) = get x in (a, b, c, d, e, f)
  blank _ = blank (Proxy :: Proxy (a, (b, c, d, e, f)))

instance (Wire a, Wire b, Wire c, Wire d, Wire e, Wire f, Wire g) => Wire (a, b, c, d, e, f, g) where
  put (a, b, c, d, e, f, g) = put (a, (b, c, d, e, f, g))
  get x = let (a, (b, c, d, e, f, g)) = get x in (a, b, c, d, e, f, g)
  blank _ = blank (Proxy :: Proxy (a, (b, c, d, e, f, g)))

-- | The word or the parentheses that a text begins with.
parsed :: String -> X
parsed = fst . one
  where
    one ('(' : s) = many s []
    one s = let (w, r) = break (`elem` " ()") s in (Word w, r)
    many (')' : s) done = (List (reverse done), s)
    many (' ' : s) done = many s done
    many s done = let (x, r) = one s in many r (x : done)

-- | What a network outputs on a stream, a line a sample.
output :: (Wire a, Wire b) => SF a b -> String -> String
output f = unlines . map put . runSF f . samples "" . lines
  where
    samples _ [] = []
    samples before (l : ls) =
      let (step, text) = case l of
            '+' : r -> let (d, w) = break (== ' ') r in (read d, drop 1 w)
            _ -> (0, l)
          text' = if text == "=" then before else text
      in (step, get (parsed text')) : samples text' ls

-- | A network with its name.
data Case = forall a b. (Wire a, Wire b) => Case String (SF a b)

-- | Runs each network on the file `NAME.in`, streams behind one another with a line `--` between, and writes `NAME.out` likewise, or
-- what went wrong.
runAll :: [Case] -> IO ()
runAll cases = forM_ cases $ \(Case name f) -> do
  given <- readFile (name ++ ".in")
  writeFile (name ++ ".out") (concatMap ((++ "--\n") . output f . unlines) (streams (lines given)))
    `catch` \e -> writeFile (name ++ ".out") (show (e :: SomeException))
  where
    streams [] = []
    streams ls = let (one, rest) = break (== "--") ls in one : streams (drop 1 rest)
