{-# LANGUAGE BangPatterns, OverloadedStrings #-}
-- | What a user would write in typed Haskell: signal functions as continuations, and a filter of timed lines.
module SF (SF (..), Value, arr, (>>>), first, loopPre, iPre, hold, accumBy, integral, swap, filtered, value) where

import qualified Data.ByteString.Builder as BB
import qualified Data.ByteString.Char8 as B
import qualified Data.ByteString.Lazy as L
import qualified Data.ByteString.Lazy.Char8 as L8
import System.IO

newtype SF a b = SF {stepped :: Int -> a -> (SF a b, b)}

infixr 1 >>>

arr :: (a -> b) -> SF a b
arr f = same where same = SF (\_ a -> let !b = f a in (same, b))

(>>>) :: SF a b -> SF b c -> SF a c
SF f >>> SF g = SF $ \dt a -> case f dt a of
  (f', b) -> case g dt b of
    (g', c) -> let !h = f' >>> g' in (h, c)

first :: SF a b -> SF (a, c) (b, c)
first (SF f) = SF $ \dt (a, c) -> case f dt a of (f', b) -> let !h = first f' in (h, (b, c))

loopPre :: c -> SF (a, c) (b, c) -> SF a b
loopPre !c (SF f) = SF $ \dt a -> case f dt (a, c) of (f', (b, c')) -> let !h = loopPre c' f' in (h, b)

iPre :: a -> SF a a
iPre !a = SF (\_ b -> (iPre b, a))

hold :: a -> SF (Maybe a) a
hold !a = same where same = SF (\_ e -> maybe (same, a) (\b -> (hold b, b)) e)

accumBy :: (b -> a -> b) -> b -> SF (Maybe a) (Maybe b)
accumBy g !b = same
  where same = SF (\_ e -> maybe (same, Nothing) (\a -> let !b' = g b a in (accumBy g b', Just b')) e)

integral :: SF Int Int
integral = from 0 0 where from !total !a = SF (\dt b -> let !total' = total + dt * a in (from total' b, total'))

swap :: (a, b) -> (b, a)
swap (a, b) = (b, a)

-- | Reads a value off the front of a text.
type Value a = B.ByteString -> (a, B.ByteString)

value :: B.ByteString -> Value ()
value word text = maybe (error "no value") ((,) ()) (B.stripPrefix word text)

-- | Runs a signal function on the timed lines of standard input.
filtered :: Value a -> (b -> BB.Builder) -> SF a b -> IO ()
filtered reader builder net = do
  hSetBinaryMode stdin True
  hSetBinaryMode stdout True
  hSetBuffering stdout (BlockBuffering (Just 65536))
  text <- L.getContents
  BB.hPutBuilder stdout (begun (map L.toStrict (L8.lines text)))
  where
    begun [] = mempty
    begun (line : more) = let !a = fst (reader line) in output (stepped net 0 a) a more
    output (net', b) a more = builder b <> BB.char7 '\n' <> rest net' a more
    rest _ _ [] = mempty
    rest net' before (line : more) = case B.readInt (B.drop 1 line) of
      Just (dt, text) | text == " =" -> output (stepped net' dt before) before more
                      | otherwise -> let !a = fst (reader (B.drop 1 text)) in output (stepped net' dt a) a more
      Nothing -> error "no step"
