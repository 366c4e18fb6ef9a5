/** A verified LMAX Disruptor: events of any class, in place, through a graph of handlers. */
module org.verified.disruptor {
    exports org.verified.disruptor;
}
