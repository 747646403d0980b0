package io.netty.channel;

import io.netty.buffer.ByteBuf;
import io.netty.buffer.Unpooled;
import io.netty.channel.embedded.EmbeddedChannel;
import java.io.BufferedReader;
import java.io.InputStreamReader;
import java.io.PrintWriter;
import java.lang.reflect.Field;
import java.nio.ByteBuffer;
import java.util.ArrayList;
import java.util.List;
import java.util.logging.LogManager;

/**
 * Plays scripts of `ob_tool run` on the ChannelOutboundBuffer of a channel that sends nothing, and writes its traces.
 *
 * It stands in Netty's package, since failFlushed and close are not public. A line `script LOW HIGH` begins a new buffer.
 * If the answer to a line is a named difference, its trace ends with a tab and that name: there Netty throws, asserts,
 * wraps or has no such call, and the answer is what the program has to say. The first line of all is Netty's version, and
 * how many bytes an empty buffer with a high mark of 1 lacks to be unwritable.
 */
public final class Player {
    private final List<ChannelPromise> promises = new ArrayList<>();
    private final StringBuilder settled = new StringBuilder();
    private final EmbeddedChannel channel;
    private final ChannelOutboundBuffer buffer;
    private String change = "";
    private String difference;
    private int unflushed;
    private boolean closed;

    private Player(int low, int high) {
        channel = new EmbeddedChannel(new ChannelInboundHandlerAdapter() {
            @Override
            public void channelWritabilityChanged(ChannelHandlerContext context) {
                change += buffer.isWritable() ? " +" : " -";
            }
        });
        channel.config().setWriteBufferWaterMark(new WriteBufferWaterMark(low, high));
        buffer = channel.unsafe().outboundBuffer();
    }

    public static void main(String[] arguments) throws Exception {
        // a promise that was cancelled and is failed by a close is worth a warning to Netty
        LogManager.getLogManager().reset();
        BufferedReader lines = new BufferedReader(new InputStreamReader(System.in));
        PrintWriter trace = new PrintWriter(System.out);
        String version = ByteBuf.class.getPackage().getImplementationVersion();
        trace.println(version + " " + new Player(0, 1).buffer.bytesBeforeUnwritable());
        Player player = null;
        for (String line = lines.readLine(); line != null; line = lines.readLine()) {
            String[] words = line.split(" ");
            if (words[0].equals("script")) {
                player = new Player(Integer.parseInt(words[1]), Integer.parseInt(words[2]));
            } else {
                trace.println(player.trace(words));
            }
        }
        trace.flush();
    }

    /** A field of the buffer that no method shows. */
    private static Field hidden(String name) throws NoSuchFieldException {
        Field field = ChannelOutboundBuffer.class.getDeclaredField(name);
        field.setAccessible(true);
        return field;
    }

    private String trace(String[] words) throws Exception {
        change = "";
        difference = null;
        settled.setLength(0);
        String answer = answer(words);
        // what a user bit turned is told by a task of the event loop
        channel.runPendingTasks();
        int word = hidden("unwritable").getInt(buffer);
        String line = answer + String.format(" t=%d w=%08x", buffer.totalPendingWriteBytes(), word) + change + settled;
        return difference == null ? line : line + "\t" + difference;
    }

    private String answer(String[] words) throws Exception {
        if (words[0].equals("?")) {
            return look();
        }
        if (words[0].equals("g")) {
            return gathered(Integer.parseInt(words[1]), Integer.parseInt(words[2]));
        }
        if (closed) {
            return differs("!4", "a call after the close: refused here, in Netty the channel has no buffer any more");
        }
        return answerOfOpen(words);
    }

    private String answerOfOpen(String[] words) throws Exception {
        long number = words.length > 1 ? Long.parseUnsignedLong(words[1]) : 0;
        boolean flag = words.length > 2 && words[2].equals("1");
        switch (words[0]) {
            case "b": return write(Unpooled.buffer((int) number).writeZero((int) number));
            case "r": return writeRegion(number);
            case "o": return write(number);
            case "f": return flush();
            case "rm": return buffer.remove() ? "yes" : "no";
            case "rc": return buffer.remove(cause(number)) ? "yes" : "no";
            case "rb": return removeBytes(number);
            case "p": return progress(number);
            case "x": return cancel(number);
            case "fl": return failFlushed(cause(number), flag);
            case "cl": return close(cause(number));
            case "u": return setBit((int) number, flag);
            case "m": return setMarks((int) number, Integer.parseInt(words[2]));
            default: throw new IllegalArgumentException(words[0]);
        }
    }

    private String differs(String answer, String name) {
        difference = name;
        return answer;
    }

    private static Exception cause(long number) {
        return new Exception(Long.toString(number));
    }

    /** As AbstractUnsafe.write has it: the size is what the channel's own estimator says. */
    private String write(Object message) {
        int size = ((DefaultChannelPipeline) channel.pipeline()).estimatorHandle().size(message);
        int number = promises.size();
        ChannelPromise promise = channel.newPromise();
        promise.addListener(done -> settled.append(' ').append(number).append(':').append(outcome(promise)));
        promises.add(promise);
        unflushed++;
        buffer.addMessage(message, size, promise);
        return "id " + number;
    }

    private static String outcome(ChannelPromise promise) {
        if (promise.isCancelled()) {
            return "x";
        }
        return promise.isSuccess() ? "ok" : "f" + promise.cause().getMessage();
    }

    private String writeRegion(long length) {
        if (length < 0) {
            return differs("!1", "a region past 9223372036854775807 bytes: refused here, in Netty its length is a long");
        }
        // no byte of the file is read, so there need be none
        return write(new DefaultFileRegion(new java.io.File("none"), 0, length));
    }

    private String flush() {
        int before = buffer.size();
        buffer.addFlush();
        unflushed = 0;
        return "n " + (buffer.size() - before);
    }

    private String removeBytes(long count) throws Exception {
        if (Long.compareUnsigned(count, bytesInFront()) > 0) {
            return differs("!7", "a removal past the end of the blocks: refused here, in Netty all blocks go, and it asserts");
        }
        send(count);
        int before = buffer.size();
        buffer.removeBytes(count);
        return "n " + (before - buffer.size());
    }

    private long bytesInFront() throws Exception {
        long[] sum = {0};
        buffer.forEachFlushedMessage(message -> {
            if (message instanceof ByteBuf) {
                sum[0] += ((ByteBuf) message).readableBytes();
            }
            return message instanceof ByteBuf;
        });
        return sum[0];
    }

    /** What a socket that takes so many bytes does: it moves the positions of the buffers, which Netty keeps and gives again. */
    private void send(long count) {
        ByteBuffer[] blocks = buffer.nioBuffers();
        long left = count;
        for (int place = 0; place < buffer.nioBufferCount(); place++) {
            int taken = (int) Math.min(left, blocks[place].remaining());
            blocks[place].position(blocks[place].position() + taken);
            left -= taken;
        }
    }

    private String progress(long count) {
        if (buffer.isEmpty()) {
            return differs("!5", "progress with nothing flushed: refused here, in Netty asserted");
        }
        if (count < 0 || currentProgress() > Long.MAX_VALUE - count) {
            return differs("!6", "progress past 9223372036854775807: refused here, in Netty it wraps");
        }
        buffer.progress(count);
        return "ok";
    }

    /** The progress of the front. If a removal of bytes brought it past the greatest long it wrapped, and here it stops. */
    private long currentProgress() {
        long progress = buffer.currentProgress();
        return progress < 0 ? Long.MAX_VALUE : progress;
    }

    private String cancel(long number) {
        if (number >= promises.size()) {
            return differs("!10", "a promise that no write has: refused here, in Netty it cannot be named");
        }
        return promises.get((int) number).cancel(false) ? "yes" : "no";
    }

    private String failFlushed(Exception cause, boolean notify) {
        int before = buffer.size();
        buffer.failFlushed(cause, notify);
        return "n " + (before - buffer.size());
    }

    private String close(Exception cause) throws Exception {
        try {
            buffer.close(cause, true);
        } catch (IllegalStateException refused) {
            // Netty still thinks that it is inside a failing then, and would make no other
            hidden("inFail").setBoolean(buffer, false);
            return differs("!9", "a close over flushed messages: refused here, in Netty an exception");
        }
        closed = true;
        return "n " + unflushed;
    }

    private String setBit(int index, boolean writable) {
        try {
            buffer.setUserDefinedWritability(index, writable);
        } catch (IllegalArgumentException refused) {
            return differs("!8", "a user bit outside 1 to 31: refused here, in Netty an exception");
        }
        return "ok";
    }

    private String setMarks(int low, int high) {
        channel.config().setWriteBufferWaterMark(new WriteBufferWaterMark(low, high));
        return "ok";
    }

    private String look() {
        if (buffer.currentProgress() < 0) {
            difference = "progress past 9223372036854775807 by a removal of bytes: it stops here, in Netty it wraps";
        }
        return "size=" + buffer.size() + " cur=" + currentProgress() + " bu=" + buffer.bytesBeforeUnwritable()
            + " bw=" + buffer.bytesBeforeWritable();
    }

    private String gathered(int count, int bytes) {
        ByteBuffer[] blocks = buffer.nioBuffers(count, bytes);
        StringBuilder lengths = new StringBuilder("g");
        for (int place = 0; place < buffer.nioBufferCount(); place++) {
            lengths.append(' ').append(blocks[place].remaining());
        }
        return lengths.toString();
    }
}
