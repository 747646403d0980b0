package io.netty.channel;

import io.netty.buffer.ByteBuf;
import io.netty.buffer.Unpooled;
import io.netty.channel.embedded.EmbeddedChannel;

/**
 * Times the cycles of bench/cycle_times on Netty's ChannelOutboundBuffer, and prints the same lines: how many messages
 * wait, and the picoseconds of one message that is written, flushed and removed, in each shape. The one argument is `void`
 * or `promise`: what each write is given. The code is warm before anything is timed.
 */
public final class Cycles {
    private static final int[] DEPTHS = {0, 1, 1_000, 10_000, 100_000};
    private static final int MESSAGES = 480_000;
    private static final int WARM = 3;
    private static final int BATCH = 16;
    private static final int SIZE = 64;

    private enum Shape { SINGLE, BATCH, BATCH_BY_BYTES, BATCH_SENT }

    private final EmbeddedChannel channel = new EmbeddedChannel();
    private final ByteBuf block = Unpooled.buffer(SIZE).writeZero(SIZE);
    private final boolean promised;
    private final ChannelOutboundBuffer buffer;

    private Cycles(int depth, boolean promised) {
        this.promised = promised;
        channel.config().setWriteBufferWaterMark(new WriteBufferWaterMark(32768, 65536));
        buffer = channel.unsafe().outboundBuffer();
        for (int count = 0; count < depth; count++) {
            write();
        }
        buffer.addFlush();
    }

    public static void main(String[] arguments) {
        boolean promised = arguments[0].equals("promise");
        for (Shape shape : Shape.values()) {
            for (int round = 0; round < WARM; round++) {
                new Cycles(1, promised).picoseconds(shape);
            }
        }
        for (int depth : DEPTHS) {
            StringBuilder line = new StringBuilder().append(depth);
            for (Shape shape : Shape.values()) {
                line.append(' ').append(new Cycles(depth, promised).picoseconds(shape));
            }
            System.out.println(line);
        }
    }

    private void write() {
        buffer.addMessage(block.retain(), SIZE, promised ? channel.newPromise() : channel.voidPromise());
    }

    private long picoseconds(Shape shape) {
        long start = System.nanoTime();
        if (shape == Shape.SINGLE) {
            for (int count = 0; count < MESSAGES; count++) {
                write();
                buffer.addFlush();
                buffer.remove();
            }
        } else {
            for (int count = 0; count < MESSAGES / BATCH; count++) {
                batch(shape);
            }
        }
        return (System.nanoTime() - start) * 1000 / MESSAGES;
    }

    private void batch(Shape shape) {
        for (int count = 0; count < BATCH; count++) {
            write();
        }
        buffer.addFlush();
        if (shape == Shape.BATCH_BY_BYTES) {
            buffer.removeBytes((long) BATCH * SIZE);
        } else if (shape == Shape.BATCH_SENT) {
            buffer.nioBuffers(BATCH, Integer.MAX_VALUE);
            buffer.removeBytes(buffer.nioBufferSize());
        } else {
            for (int count = 0; count < BATCH; count++) {
                buffer.remove();
            }
        }
    }
}
