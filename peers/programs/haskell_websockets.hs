{-# LANGUAGE OverloadedStrings #-}
-- websockets: runServer and runClient. With the word `strict` before the role it checks that text is UTF-8.
module Main (main) where

import Control.Concurrent (forkIO)
import Control.Concurrent.MVar (MVar, newMVar, withMVar)
import Control.Exception (SomeException, fromException, try)
import Control.Monad (forM_, forever, unless, void, when)
import qualified Data.ByteString.Char8 as Bytes
import qualified Data.ByteString.Lazy as Lazy
import qualified Data.ByteString.Lazy.Char8 as LazyChars
import Data.List (isPrefixOf)
import qualified Network.WebSockets as WS
import Numeric (showHex)
import System.Environment (getArgs)
import System.IO

type Printing = MVar ()

line :: Printing -> [String] -> IO ()
line printing ws = withMVar printing (\_ -> putStrLn (unwords ws) >> hFlush stdout)

hex :: Lazy.ByteString -> String
hex = concatMap digits . Lazy.unpack
  where
    digits byte = let shown = showHex byte "" in if length shown < 2 then '0' : shown else shown

texts :: String -> [Lazy.ByteString]
texts name
  | "long" `isPrefixOf` name = map letters [65535, 65536]
  | "short" `isPrefixOf` name = ["", "Hello", letters 125, letters 126]
  | otherwise = []
  where
    letters count = LazyChars.replicate count 'a'

say :: WS.Connection -> String -> IO ()
say connection name = do
  forM_ (texts name) (WS.sendTextData connection)
  when ("short" `isPrefixOf` name) $ do
    WS.sendBinaryData connection (Lazy.pack [0, 1, 254, 255])
    WS.sendPing connection ("p" :: Lazy.ByteString)
  unless (null (texts name)) $ WS.sendCloseCode connection 1000 ("bye" :: Lazy.ByteString)

talk :: Printing -> String -> WS.Connection -> IO ()
talk printing name connection = do
  ended <- try (say connection name >> forever receive) :: IO (Either SomeException ())
  line printing [name, "closed", either code (const "-") ended]
  where
    receive = do
      message <- WS.receiveDataMessage connection
      case message of
        WS.Text bytes _ -> line printing [name, "text", hex bytes]
        WS.Binary bytes -> line printing [name, "binary", hex bytes]
    code thrown = case fromException thrown of
      Just (WS.CloseRequest given _) -> show given
      _ -> "-"

serve :: Printing -> WS.PendingConnection -> IO ()
serve printing pending = do
  connection <- WS.acceptRequest pending
  talk printing (drop 1 (Bytes.unpack (WS.requestPath (WS.pendingRequest pending)))) connection

connectAll :: Printing -> WS.ConnectionOptions -> IO ()
connectAll printing options = do
  line printing ["ready"]
  urls <- lines <$> getContents
  forM_ urls $ \url -> do
    let (port, path) = break (== '/') (drop (length ("ws://127.0.0.1:" :: String)) url)
    void (forkIO (WS.runClientWith "127.0.0.1" (read port) path options [] (talk printing (drop 1 path))))

main :: IO ()
main = do
  printing <- newMVar ()
  given <- getArgs
  let options = WS.defaultConnectionOptions {WS.connectionStrictUnicode = take 1 given == ["strict"]}
  case filter (/= "strict") given of
    ["server", port] ->
      line printing ["ready"] >> WS.runServerWith "127.0.0.1" (read port) options (serve printing)
    _ -> connectAll printing options
